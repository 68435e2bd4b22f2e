"""The words on wrong bodies and twins that a prover refuses here or there, or not at all."""

import os
from typing import Dict, NamedTuple, Sequence

import pytest

from tests.harness import by_name
from tests.scripts.place import Place

#: Four functions, of five lines each, and one that the prover doesn't know by its name.
SOURCE = ''.join(f'// The word {n}.\nfn f{n}() {{\n    "right {n}", "just {n}"\n}}\n\n' for n in range(4)) + 'fn lost() {\n    "right 8"\n}\n'


class Bodies(NamedTuple):
    """The words in place of the right ones in the wrong bodies and in their twins, by the number of the word, or 10 more for a second one of a word, or 20 more for
    the just word beside it; the numbers of those that are marked for the gate; and what has to be said."""

    name: str
    says: Sequence[str]
    wrong: Dict[int, str] = {}
    twins: Dict[int, str] = {}
    status: int = 0
    words: Sequence[str] = ()
    gate: Sequence[int] = ()
    more: str = ''


ROUNDS = [
    Bodies(
        'wrong bodies with twins',
        ['1 at an open goal with values that make it false, 1 at an open goal, 0 elsewhere, 0 NOT refused', '0 checks of a whole crate', '4 passed, 0 failed, 0 skipped'],
        {0: 'false', 2: 'doubtful'},
        {0: 'right too', 2: 'right as well'},
    ),
    Bodies('a twin is lacking', ['skipped: words/wrong_1: it has no twin', '1 passed, 0 failed, 1 skipped'], {1: 'false'}),
    Bodies('a twin is not proved', ['FAILED: words/wrong_1, the twin', '3 passed, 1 failed'], {0: 'false', 1: 'false'}, {0: 'too', 1: 'false'}, 1),
    Bodies('a twin of which nothing is said', ['FAILED: words/wrong_3, the twin', '1 passed, 1 failed'], {3: 'false'}, {3: 'unsaid'}, 1),
    Bodies('a line that nothing reads', ["FAILED: words/wrong_3: nothing reads its line '# twn: too' there", '0 passed, 1 failed'], {3: 'false'}, {}, 1, more='# twn: too\n'),
    Bodies('a twin that stands nowhere', ["nothing reads its line '# twin: too' there", '0 passed, 1 failed'], {3: 'false'}, {}, 1, more='old: right 3\n# twin: too\n'),
    Bodies('not refused', ['FAILED: words/wrong_3: NOT refused: what it stands in is proved with it', '1 passed, 1 failed'], {0: 'false', 3: 'right'}, {}, 1),
    Bodies('a goal of another function', ['FAILED: words/wrong_2: elsewhere', '1 passed, 1 failed'], {1: 'false', 2: 'far'}, {}, 1),
    Bodies(
        'what the prover cannot read',
        ['FAILED: words/wrong_2: NOT refused: the check stopped', '2 passed, 1 failed'],
        {0: 'false', 1: 'doubtful', 2: 'unread'},
        {},
        1,
    ),
    Bodies('two of one function', ['NOT refused', '3 passed, 1 failed'], {0: 'false', 10: 'right'}, {0: 'too', 10: 'as well'}, 1),
    Bodies('two places of one function', ['FAILED: words/wrong_20: NOT refused', '1 passed, 1 failed'], {0: 'false', 20: 'just so'}, {}, 1),
    Bodies('a function without a name for the prover', ['2 checks of a whole crate', '2 passed, 0 failed'], {8: 'false'}, {8: 'right'}),
    Bodies(
        'those of the gate',
        ['3 at an open goal', '6 passed, 0 failed'],
        {0: 'doubtful', 10: 'right', 1: 'doubtful', 2: 'doubtful'},
        {0: 'too', 10: 'false', 1: 'too', 2: 'too'},
        words=['--gate'],
        gate=[0, 1, 2],
    ),
    Bodies('too few for the gate', ["of 2 only 1 are marked 'gate'", '1 passed, 1 failed'], {0: 'doubtful', 1: 'right'}, {}, 1, ['--gate'], [0]),
    Bodies('two of a name', ['FAILED: words/wrong_3: another one has its name', '0 passed, 2 failed'], {3: 'false'}, {}, 1, more='\nwrong_3 (f3)\nold: right 3\n'),
    Bodies('no name above an edit', ["FAILED: words/old: right 3: a wrong body begins with 'NAME (FUNCTION)", '1 failed'], {3: 'false'}, {}, 1, more='\nold: right 3\n'),
    Bodies('a body that stands nowhere', ["FAILED: words/wrong_7: its text 'old' is in src/lib.rt 0 times", '0 passed, 1 failed'], {7: 'false'}, {}, 1),
]


#: The line of the kit that stands for the prover's.
KIT = 'a kit of words'

class Words:
    """A crate of words over one of letters, with the kit that goes by them."""

    def __init__(self, place: Place) -> None:
        self.place = place
        self._kit = place.put('../words kit/bin/rt', b'#!/bin/sh\nexit 1\n')
        for name in ('rtlib.py', 'rattle'):
            place.stand_in(name, f'../words kit/bin/{name}')
        place.put('../words kit/KIT-ID', f'{KIT}\n'.encode(), 0o644)
        place.put('crates.txt', b'letters:\nwords: letters\n', 0o644)
        place.put('crates/letters/src/lib.rt', b'letters\n', 0o644)
        place.put('crates/letters/out/rlib/stamp', b'letters\n', 0o644)
        place.put('crates/words/src/lib.rt', SOURCE.encode(), 0o644)
        place.give()

    def write(self, row: Bodies) -> None:
        """The wrong bodies of a row, in place of those that were there."""
        self.place.put('crates/words/wrong-bodies.edits', edits(row).encode(), 0o644)

    def asked(self) -> str:
        """The prover's tasks so far, a line for each time."""
        return self.place.file('../words kit/asked').decode()

    def expect(self, says: Sequence[str], status: int = 0, words: Sequence[str] = ('words',), **env: str) -> None:
        self.place.run(['tools/test_bodies', *words], env={'RT': self._kit, **env}).expect(*says, status=status)


def edits(row: Bodies) -> str:
    found = ['# Some words.\n']
    for n, word in row.wrong.items():
        lines = [f'wrong_{n} (f{n % 10}{", gate" * (n in row.gate)}): the word\n  is another.\n', 'file: src/lib.rt\n']
        lines += [f'old: {"just" if n >= 20 else "right"} {n % 10}\n', f'new: {word}\n']
        lines += [f'# twin: {row.twins[n]}\n'] if n in row.twins else []
        lines += [row.more]
        found.append(''.join(lines))
    return '\n'.join(found)


#: Prints what the libraries of this kit rest on, by the scripts of the copy.
RESTS_ON = 'import sys; sys.path.insert(0, "tools"); from gating.proofs import sum_of_libraries; print(sum_of_libraries(sys.argv[1]), end="")'


def test_libraries(words: Words) -> None:
    """A library is taken as `rt lib` has left it, or `rt ci`, where it is of the sources here."""
    words.write(ROUNDS[0])
    put = words.place.put
    put('crates/letters/src/lib.rt', b'other letters\n', 0o644)
    lacks = ['not built of the sources here: letters; run make build first, or make gate', '0 passed, 1 failed']
    words.expect(lacks, 1, ANEW='1')
    os.remove(put('crates/letters/out/rlib/stamp', b'', 0o644))
    words.expect(lacks, 1, ANEW='1')
    made = put('crates/letters/out/rlib/letters.rlib/format', b'', 0o644)
    words.expect(['4 passed, 0 failed'], ANEW='1')
    os.utime(made, (1, 1))
    words.expect(lacks, 1, ANEW='1')
    # As the gate's `rt ci` brings it back from an earlier run; and so again, where the sources aren't those any more, nor it the library.
    rests_on = words.place.run(['python3', '-Bc', RESTS_ON, KIT]).output
    note = put('build/libraries', rests_on, 0o644)
    words.expect(['4 passed, 0 failed'], ANEW='1')
    os.utime(note, (0, 0))
    words.expect(lacks, 1, ANEW='1')
    os.utime(made)
    words.expect(["FAILED: wrong bodies: beside", '0 passed, 1 failed'], 1, RT='/bin/true')


def test_what_is_kept(words: Words) -> None:
    """An edit that passed is not tried again, if nothing has changed."""
    words.write(ROUNDS[0])
    place = words.place
    cache = os.path.join(os.path.dirname(place.path), 'kept results')
    kept = os.path.join(cache, 'verified-puzzles', 'bodies')
    words.expect(['0 kept', '4 passed'], XDG_CACHE_HOME=cache)
    asked = words.asked()
    words.expect(['refused, kept: words/wrong_0: at an open goal with values', '4 kept', '4 passed, 0 failed'], XDG_CACHE_HOME=cache)
    assert words.asked() == asked, words.asked()
    words.expect(['0 kept', '4 passed'], XDG_CACHE_HOME=cache, ANEW='1')
    names = sorted(os.listdir(kept))
    assert len(names) == 4, repr(names)
    for content in (b'', b'\xff', b'no sum\n["proved"]'):
        for name in names:
            place.put(os.path.join(kept, name), content, 0o644)
        words.expect(['0 kept', '4 passed'], XDG_CACHE_HOME=cache)
    place.put('crates/letters/src/lib.rt', b'more letters\n', 0o644)
    os.remove(os.path.join(place.path, 'crates/letters/out/rlib/stamp'))
    place.put('crates/letters/out/rlib/letters.rlib/format', b'', 0o644)
    words.expect(['0 kept', '4 passed'], XDG_CACHE_HOME=cache)
    words.write(Bodies('', [], {0: 'false', 2: 'false'}, {0: 'right too', 2: 'right as well'}))
    words.expect(['3 kept', '4 passed'], XDG_CACHE_HOME=cache)
    words.write(Bodies('', [], {0: 'right', 2: 'false'}, {0: 'right too', 2: 'right as well'}))
    for _ in range(2):
        words.expect(['3 kept', 'FAILED: words/wrong_0: NOT refused', '3 passed, 1 failed'], 1, XDG_CACHE_HOME=cache)


@pytest.fixture(name='words')
def words_of(place: Place) -> Words:
    return Words(place)


@pytest.mark.parametrize('row', ROUNDS, ids=by_name)
def test_bodies(words: Words, row: Bodies) -> None:
    words.write(row)
    words.expect(row.says, row.status, [*row.words, 'words'], ANEW='1')
