"""Drawings are read as what they draw, or refused: in each form that people use, written by hand, and damaged."""

from typing import List

import pytest

from playing import drawings
from playing.drawings import sentences, writing
from tests.drawings import damage
from tests.drawings.forms import forms
from tests.drawings.puzzles import Puzzle, puzzles
from tests.drawings.rows import ROWS, Row, as_told, fits
from tests.harness import by_name

PUZZLES = puzzles(1, 2)


def told(text: str) -> List[str]:
    """The reading of a text: a puzzle by its game, its size and its items, an ID, or nothing."""
    found = []
    for read in drawings.read(text):
        found.append(' '.join([read.puzzle.game, str(read.puzzle.size), *sorted(read.puzzle.items)]) if read.puzzle else read.id or f'no: {read.why}')
    return found


def of(puzzle: Puzzle) -> str:
    return ' '.join([puzzle.game, str(puzzle.size), *puzzle.items])


@pytest.mark.parametrize('name', sorted({name for puzzle in PUZZLES for name in forms(puzzle)}))
def test_forms(name: str) -> None:
    """Of puzzles of each size."""
    drawn = [(puzzle, forms(puzzle)[name]) for puzzle in PUZZLES if name in forms(puzzle)]
    assert [told(drawing) for _, drawing in drawn] == [[of(puzzle)] for puzzle, _ in drawn]


def test_many_in_one() -> None:
    """One below the other, with a blank line between, as many as there are; what is wrong with one is told of that one alone."""
    drawn = [forms(puzzle)['show'] for puzzle in PUZZLES]
    wanted = [[of(puzzle)] for puzzle in PUZZLES]
    assert [[one] for one in told('\n'.join(drawn))] == wanted
    drawn[5] = drawn[5][:-4] + '\n'
    found = told('\n'.join(drawn))
    assert [[one] for one in (*found[:5], *found[6:])] == [*wanted[:5], *wanted[6:]] and found[5].startswith('no: ')


#: As the usual program copies it; and a copy of three squares by three in which a row is lost.
COPY = '     1   2  \n\n1          2   \n               \n              5\n5             1\n         3     \n\n   4        \n'
TORN = '     2 3\n\n2         2\n3         1\n\n     2 1\n'


def test_copies() -> None:
    """Copies of the usual program below one another: each is read by itself, though the next one lacks a line."""
    own = [puzzle for puzzle in PUZZLES if puzzle.game == 'towers']
    drawn = [writing.copied(drawings.Puzzle(puzzle.game, puzzle.size, tuple(puzzle.items))) for puzzle in own]
    assert told('\n'.join(drawn)) == [of(puzzle) for puzzle in own]
    first, torn = drawings.read(f'{COPY}\n{TORN}')
    assert first.puzzle and writing.copied(first.puzzle) == COPY
    assert (torn.puzzle, torn.line) == (None, 11)


@pytest.mark.parametrize('write', [writing.copied, writing.tabbed], ids=['copied', 'table'])
def test_written(write: object) -> None:
    """A text that is written is read again."""
    assert callable(write)
    for puzzle in PUZZLES:
        own = drawings.Puzzle(puzzle.game, puzzle.size, tuple(puzzle.items))
        assert told(f'{puzzle.game}\n{write(own)}') == [of(puzzle)]


@pytest.mark.parametrize('game', sentences.FORMS)
def test_shown_forms(game: str) -> None:
    """A form that is shown because it would do can be read."""
    assert [one.split()[:2] for one in told('\n'.join(sentences.FORMS[game]))] == [[game, '3']]


@pytest.mark.parametrize('row', ROWS, ids=by_name)
def test_rows(row: Row) -> None:
    found = drawings.read(row.text)
    assert len(found) == len(row.told) and all(map(fits, row.told, found)), [as_told(read) for read in found]


def test_damaged() -> None:
    """A damaged drawing is refused, or read as what it draws still."""
    wrong = []
    for name, drawing, broken in damage.some(11, 600):
        for read in drawings.read(broken):
            if read.puzzle and not damage.is_drawn(read.puzzle, name, broken):
                wrong.append((name, drawing, broken))
    assert not wrong
