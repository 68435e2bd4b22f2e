"""All that the documents name is there: functions, types, definitions, files, crates, targets of `make`, wrong bodies."""

import re
from typing import Dict, Iterator, Set

import pytest

from bodies.edits import bodies_in
from bodies.sources import places_of
from tests.objects import schema
from tests.texts import sources
from tests.texts.parts import ROOT, documents, found, items, part, read, without_samples
from trusting.page import PARTS, listed

#: Words in backquotes of the language and its library, of the system, and of what `rt plant` and `puzzles-play` print.
OTHER_WORDS = {'make', 'mod', 'Vec', 'Unit', 'flat_map', 'proves', 'unknown'}

#: A path with a place for any name, or of what is made.
NOT_THERE = r'NAME|^build/|^out/'


class Known:
    """All that a document may name."""

    def __init__(self) -> None:
        self.crates: Dict[str, Set[str]] = {crate: sources.declared(crate) for crate in sources.crates()}
        self.files = sources.files()
        self.make = sources.make_names()
        self.names = set(found(r'\b(\w+)', read('crates.txt'))).union(OTHER_WORDS, self.make, *self.crates.values())
        self.names.update(schema.names(), schema.STATUSES, schema.COUNTS, schema.KINDS)
        self.names.update(name for path in self.files for name in (path.rpartition('/')[2], path.rpartition('/')[2].partition('.')[0]))
        self.names.update(name for _, name in listed(PARTS).kit)

    def has(self, words: str) -> bool:
        """Whether a name, a path or a command of `make` is one that there is. A word that is none of these is a sample."""
        if words.startswith('make '):
            return words.split()[1] in self.make
        if re.fullmatch(r'\w+::\w+', words):
            return self.has_member(*words.split('::'))
        if re.fullmatch(r'\.?[A-Za-z][\w./-]*(/|/\w+|\.(rt|antt|edits|md|txt|c|bash|fish|zsh|py|5|6))', words):
            return bool(re.search(NOT_THERE, words)) or any(f'/{file}'.endswith('/' + words.rstrip('/')) for file in self.files)
        return words in self.names or not re.fullmatch(r'[A-Za-z][A-Za-z_]{2,}', words)

    def has_member(self, owner: str, name: str) -> bool:
        """The declarations of a crate, or of a crate that declares the owner too."""
        if owner in self.crates:
            return name in self.crates[owner]
        return any(owner in names and name in names for names in self.crates.values())


def wrong_names(document: str, known: Known) -> Iterator[str]:
    """Names in backquotes, and words with an underscore, that aren't there."""
    text = read(document)
    for number, (line, prose) in enumerate(zip(text.split('\n'), without_samples(text).split('\n')), 1):
        named = [words for words in re.findall(r'`([^`]+)`', prose) if not known.has(words)]
        plain = re.findall(r'\b[a-z]+_\w+', re.sub(r'`[^`]*`|\]\(.*?\)', '', line))
        for words in named + [word for word in plain if word not in known.names]:
            yield f'line {number}: there is no `{words}`'


@pytest.fixture(scope='module')
def known() -> Known:
    return Known()


@pytest.mark.parametrize('document', documents())
def test_document(document: str, known: Known) -> None:
    assert list(wrong_names(document, known)) == []


def test_crates(known: Known) -> None:
    named = found(r'^\*\*`(\w+)`', '\n'.join(items(part(read('docs/ARCHITECTURE.md'), '## The crates', '^#'))))
    assert set(named) == set(known.crates) != set()


def wrong_steps(ways: str, known: Known) -> Iterator[str]:
    """Rows of the ways in samples whose second column names no function or type of the file in the first one, the last that is named."""
    file = ''
    for row in re.finditer(r'^    [|v] +(\w+\.rt)? +([\w:]+) {2,}(\S.*)$', ways, re.MULTILINE):
        file = row[1] or file
        name = row[2].rpartition(':')[2]
        texts = [read(path) for path in known.files if path.endswith(f'/{file}') and '/src/' in path]
        if not any(re.search(rf'\b(fn|struct|enum|trait) {name}\b', text) for text in texts):
            yield f'{file}: there is no {name}'
        yield from (f'{file}: there is no `{words}`' for words in found('`([^`]+)`', row[3]) if not known.has(words))


def test_ways(known: Known) -> None:
    assert list(wrong_steps(read('docs/ARCHITECTURE.md'), known)) == []
    assert list(wrong_steps('    |  session.rt       Session::play   one step (`red_hint`)\n    v                   next_one        it\n', known)) == [
        'session.rt: there is no `red_hint`',
        'session.rt: there is no next_one',
    ]


@pytest.mark.parametrize('crate', sorted(sources.crates()))
def test_wrong_bodies(crate: str) -> None:
    """Each stands in the functions that its first line names."""
    folder = ROOT / 'crates' / crate
    bodies = [body for body in bodies_in(folder) if not body.is_must_fail]
    stand = {body.name: tuple(sorted({place.name for place in places_of(body.wrong, folder)})) for body in bodies}
    assert stand == {body.name: body.functions for body in bodies}
