"""Both checkers accept all that is written, word for word alike; and no number is supposed exactly if the puzzle follows by a grade."""

import json
import re
from collections import Counter
from typing import List

import pytest

from tests.certificates.checking import PYTHON, both
from tests.certificates.conftest import NONE_MADE, Certified, Writer, seeds, some, stored
from tests.harness import ID, TOP, Room, named, run

#: Lists of the repository, in so many parts, each with how many of a part a sample has.
LISTS = [
    *((f'{game} of the bank, part {part}', f'playing/bank/{game}.txt', part, 8, 4) for game in ('towers', 'unequal') for part in range(8)),
    ('of the usual program', 'bench/puzzles.txt', 0, 1, 10),
    ('several and none', 'bench/several_and_none.txt', 0, 1, 33),
    ('hard to search', 'bench/hard.txt', 0, 1, 10),
]

#: Those of which not each has a certificate in time: what is written is accepted all the same.
HARDEST = ['bench/hard_signs.txt', 'bench/hard_families.txt']

ANSWERS = {'one': 'Exactly one solution', 'none': 'No solution', 'several': 'Several solutions'}


def expect_shown(made: Certified, room: Room, name: str = 'certificates') -> None:
    """Both checkers accept all, and say the same; the answers are those of the rows."""
    python, node = both(room, name)
    assert (python.status, python.error) == (0, b''), python.said[-500:]
    assert node == python
    told = re.findall(r'^([^,\n]*)(?:, and .*)?\. Steps: (\d+)\. Suppositions among them: (\d+)\.$', python.output.decode(), re.MULTILINE)
    rows = [row for row in made.rows if row.suppositions != NONE_MADE]
    assert [(answer, supposed) for answer, _, supposed in told] == [(ANSWERS[row.solutions], row.suppositions) for row in rows]
    assert [(each['game'], each['id'], each['answer']) for each in made.certificates] == [(row.game, row.id, row.solutions) for row in rows]


def expect_supposed(made: Certified) -> None:
    """A number is supposed exactly if a puzzle with one solution follows by no grade."""
    wrong = [row for row in made.rows if row.solutions == 'one' and (row.suppositions == '0') != (row.grade != '-')]
    assert not wrong, wrong[:3]


@pytest.mark.parametrize(('path', 'part', 'parts', 'count'), named(LISTS))
def test_stored(writer: Writer, is_whole: bool, path: str, part: int, parts: int, count: int) -> None:
    ids = stored(path)[part::parts]
    made = writer.write(ids if is_whole else some(ids, count), words=['--quick', '--seconds', '3600'])
    assert NONE_MADE not in {row.suppositions for row in made.rows}
    expect_shown(made, writer.room)
    expect_supposed(made)


def test_seeds(writer: Writer, is_whole: bool) -> None:
    made = writer.write(seeds(38 if is_whole else 2))
    expect_shown(made, writer.room)
    expect_supposed(made)
    assert {row.solutions for row in made.rows} == {'one'}


def test_fair(writer: Writer, is_whole: bool) -> None:
    """No number is supposed; and each certificate of this kind is short."""
    made = writer.write(writer.fair(range(7), range(3, 10)) if is_whole else writer.fair([1], [3, 5]))
    expect_shown(made, writer.room)
    assert Counter(row.suppositions for row in made.rows) == Counter({'0': len(made.rows)})
    assert len(made.rows) >= (200 if is_whole else 7) and max(map(len, made.lines)) < 20_000


@pytest.mark.parametrize('path', HARDEST)
def test_hardest(writer: Writer, is_whole: bool, path: str) -> None:
    """Beyond the limits a row says so, and nothing is written of it."""
    made = writer.write(stored(path) if is_whole else some(stored(path), 3), words=['--quick', '--seconds', '0.4'])
    if made.lines:
        expect_shown(made, writer.room)


def test_needed(writer: Writer, is_whole: bool) -> None:
    """By a second grid for each item, exactly if none could go. A puzzle with a grade counts items by that: one may be needed for it alone."""
    ids = [*seeds(20 if is_whole else 1), *some(stored('bench/puzzles.txt'), 60 if is_whole else 4)]
    made = writer.write(ids, words=['--needed', '--seconds', '3600'])
    expect_shown(made, writer.room)
    needs = ['needed' in each for each in made.certificates]
    assert all(row.spare == '0' for row, each in zip(made.rows, needs) if each)
    assert [row.spare == '0' for row in made.rows if row.grade == '-'] == [each for row, each in zip(made.rows, needs) if row.grade == '-']
    ended = both(writer.room, 'certificates')[0]
    assert ended.output.count(b', and each clue, sign and given is needed.') == sum(needs)


def test_by_hand(room: Room) -> None:
    """The certificate of docs/CERTIFICATES.md is accepted; as the document says, its answer is that of a puzzle that can be solved by hand."""
    text = (TOP / 'docs' / 'CERTIFICATES.md').read_text(encoding='utf-8')
    sample = re.sub(r'\n +', '', re.findall(r'^    (\{"game".*?\})$', text, re.MULTILINE | re.DOTALL)[0])
    assert json.loads(sample)['id'] == ID
    room.put('certificates', f'{sample}\n'.encode())
    python, node = both(room, 'certificates')
    assert python == node and python.status == 0, python.said


WAYS: List[List[str]] = [['certificates', 'certificates'], ['-']]


@pytest.mark.parametrize('names', WAYS, ids=str)
def test_names(writer: Writer, names: List[str]) -> None:
    """Several files, and standard input, to which certificates come from standard output of the command, alone."""
    made = writer.write([ID, f'{ID} a caption'])
    ended = run(['python3', str(PYTHON), *names], writer.room, input='\n'.join(made.lines).encode())
    assert (ended.status, ended.output.count(b'Exactly one solution. ')) == (0, 2 * len(names))
