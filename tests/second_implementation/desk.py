"""The lines of a setter that are not refused (docs/JSON.md): what an item says, how many solutions there are, and which items are spare, from the rules alone."""

from __future__ import annotations

import re
from dataclasses import replace
from typing import Any, Callable, Dict, List, NamedTuple, Optional

from tests.second_implementation.grades import LETTERS, follows
from tests.second_implementation.puzzles import Puzzle
from tests.second_implementation.seeded import first_given, full_puzzle, put, without_item
from tests.second_implementation.solving import only_solution, solution_count
from tests.second_implementation.towers import TowersPuzzle, edge_place, edge_xy
from tests.second_implementation.unequal import UnequalPuzzle, all_neighbours

#: A coordinate of a place, and what an item is to say.
COORDINATE, SAID = rb'(-1|\d|[1-9]\d|1[01]\d|12[0-7])', rb'(\d|[1-9]\d|1\d\d|2[0-4]\d|25[0-5])'
PLACE = re.compile(b'item %s,%s,%s' % (COORDINATE, COORDINATE, SAID))
SIGN = re.compile(b'item %s,%s,%s,%s,%s' % (COORDINATE, COORDINATE, COORDINATE, COORDINATE, SAID))

Object = Dict[str, Any]


class Begun(NamedTuple):
    """A line that begins a setter's puzzle: its word, and what stands after it."""

    word: str
    rest: bytes


def begun(line: bytes) -> Optional[Begun]:
    found = re.fullmatch(rb'(blank) ([^ ]+)|(thin)(?: ([^ ]+(?: (?:givens|clues|signs))?))?|(fill)', line)
    if found:
        return Begun((found[1] or found[3] or found[5]).decode(), found[2] or found[4] or b'')
    return Begun('item', line) if PLACE.fullmatch(line) or SIGN.fullmatch(line) else None


def puzzle_after(game: str, puzzle: Optional[Puzzle], asked: Begun) -> Puzzle:
    """The puzzle that such a line begins."""
    if asked.word == 'blank':
        return blank(game, int(asked.rest))
    assert puzzle
    if asked.word == 'fill':
        return filled(game, puzzle)
    return changed(puzzle, asked.rest) if asked.word == 'item' else thinned(game, puzzle, *asked.rest.split(b' '))


def blank(game: str, size: int) -> Puzzle:
    none = (0,) * (size * size)
    return TowersPuzzle(size, none, (0,) * (4 * size)) if game == 'towers' else UnequalPuzzle(size, none, frozenset())


def changed(puzzle: Puzzle, line: bytes) -> Puzzle:
    """The puzzle with the item of a line `item` changed."""
    found = PLACE.fullmatch(line) or SIGN.fullmatch(line)
    assert found
    x, y, *other, n = (int(digits) for digits in found.groups())
    size, edge = puzzle.size, edge_place(puzzle.size, x, y)
    if isinstance(puzzle, UnequalPuzzle) and other:
        sign = (y * size + x, other[1] * size + other[0])
        return replace(puzzle, signs=puzzle.signs - {sign, sign[::-1]} | ({sign} if n else frozenset()))
    if isinstance(puzzle, TowersPuzzle) and edge >= 0:
        return replace(puzzle, clues=put(puzzle.clues, edge, n))
    return replace(puzzle, givens=put(puzzle.givens, y * size + x, n))


def items(puzzle: Puzzle) -> List[int]:
    """The numbers of the items that a puzzle has, as `without_item` counts them."""
    if isinstance(puzzle, TowersPuzzle):
        said = [*puzzle.clues, *puzzle.givens]
    else:
        assert isinstance(puzzle, UnequalPuzzle)
        said = [int(pair in puzzle.signs or pair[::-1] in puzzle.signs) for pair in all_neighbours(puzzle.size)] + list(puzzle.givens)
    return [item for item, value in enumerate(said) if value]


Test = Callable[[Puzzle], bool]


def test_of(game: str, puzzle: Puzzle, word: bytes) -> Optional[Test]:
    """The test that a puzzle without a spare item passes; nothing if there is no such test. The word is a letter, or empty."""
    if word:
        grade = LETTERS[game][word.decode()]
        return lambda less: follows(less, grade)
    return [lambda less: solution_count(less) > 0, lambda less: solution_count(less) == 1, None][solution_count(puzzle)]


def spare(game: str, puzzle: Puzzle, word: bytes) -> Object:
    """The object that answers `spare`."""
    passes = test_of(game, puzzle, word)
    listed = [item for item in items(puzzle) if passes and passes(without_item(puzzle, item))]
    others = [item for item in listed if item < first_given(puzzle)]
    told: Object = {'clues': [], 'givens': [item - first_given(puzzle) for item in listed[len(others):]], 'signs': []}
    if isinstance(puzzle, TowersPuzzle):
        told['clues'] = [dict(zip('xy', edge_xy(puzzle.size, item))) for item in others]
    if isinstance(puzzle, UnequalPuzzle):
        pairs = sorted(all_neighbours(puzzle.size)[item] for item in others)
        ends = [pair if pair in puzzle.signs else pair[::-1] for pair in pairs]
        told['signs'] = [{'greater': greater, 'less': less} for greater, less in ends]
    return told


def filled(game: str, puzzle: Puzzle) -> Puzzle:
    """The puzzle with its givens, and each clue or sign of its only solution."""
    whole, _ = full_puzzle(game, puzzle.size, only_solution(puzzle))
    return replace(whole, givens=puzzle.givens)


def thinned(game: str, puzzle: Puzzle, word: bytes, first: bytes = b'givens') -> Puzzle:
    """The puzzle without items that it can do without: givens are tried first, or clues and signs, and these and those from the last to the first."""
    passes = test_of(game, puzzle, word)
    if passes and passes(puzzle):
        for item in sorted(items(puzzle), key=lambda item: ((item >= first_given(puzzle)) == (first == b'givens'), item), reverse=True):
            less = without_item(puzzle, item)
            if passes(less):
                puzzle = less
    return puzzle
