"""A player's acts on a game, as lines of the program that are one move; and where undo and redo lead.

The page in a browser does the same in page/moves.js: docs/ARCHITECTURE.md, "One middle, written twice", says what both do.
"""

from __future__ import annotations

import re
from typing import Collection, Iterable, List, Mapping, Sequence, Tuple

from playing.board import Board
from playing.naming import Place

#: A line that puts a number in; and those that go back or forth.
PUTS = re.compile('move R([0-9]),([0-9]),([1-9])')
UNDO, REDO = 'undo', 'redo'
WALKS = (UNDO, REDO)

#: The line that sets all marks in all empty squares.
ALL_MARKS = 'move M'

#: The position after a move of several states, and the one before it.
Pair = Tuple[int, int]


class Joined:
    """Moves of several states, which undo takes back as one."""

    def __init__(self, pairs: Iterable[Pair] = (), states: int = 0) -> None:
        """As they were kept, of a game of so many states: what doesn't fit it is left out."""
        self.pairs: List[Pair] = []
        for last, first in sorted(pairs):
            if 1 <= first < last <= states and (not self.pairs or self.pairs[-1][0] <= first):
                self.pairs.append((last, first))

    def made(self, before: int, after: int) -> None:
        """A move was made at one position that led to another: what could be redone is gone."""
        self.pairs = [(last, first) for last, first in self.pairs if last <= before]
        if after - before > 1:
            self.pairs.append((after, before))

    def states(self, way: str, position: int) -> int:
        """How many states the move is that undo takes back from here, or redo makes."""
        at = 0 if way == UNDO else 1
        return next((last - first for last, first in self.pairs if (last, first)[at] == position), 1)

    def states_back(self, moves: int, position: int) -> int:
        """How many states so many moves back are."""
        before = position
        for _ in range(moves):
            before -= self.states(UNDO, before)
        return position - before


def lines_of(line: str, board: Board, do_marks_go: bool) -> List[str]:
    """A line with those that go before it: marks that go with a number, so that undo takes the number back first. None, where the number is there."""
    found = PUTS.fullmatch(line)
    if found is None:
        return [line]
    x, y, number = map(int, found.groups())
    place = (x, y)
    if place in board.givens or place not in board.squares:
        return [line]
    if board.numbers.get(place) == number:
        return []
    return [*(marks_that_go(board, place, number) if do_marks_go else []), line]


def marks_that_go(board: Board, place: Place, number: int) -> List[str]:
    """The moves that take a number's marks out of the row and the column of a square."""
    seen = {*board.row(place[1]), *board.column(place[0])} - {place}
    return [flip(other, number) for other in board.squares if other in seen and number in board.marks.get(other, ())]


def possible_lines(board: Board, view: Mapping[Place, Sequence[int]]) -> List[str]:
    """The moves after which the empty squares have these marks: from those that are there, or from all marks on, where that is shorter."""
    everything = list(range(1, board.size + 1))
    single = flips(view, board.marks)
    whole = [ALL_MARKS, *flips(view, {place: everything for place in view})]
    return whole if len(whole) < len(single) else single


def keeping_lines(board: Board, view: Mapping[Place, Sequence[int]], struck: Mapping[Place, Collection[int]]) -> List[str]:
    """The moves after which the marks of empty squares lack the numbers that were struck there. A square whose marks say nothing else gets what is left of its view."""

    def left(place: Place, numbers: Sequence[int]) -> List[int]:
        return [number for number in numbers if number not in struck[place]]

    return flips({place: left(place, board.marks.get(place, ())) or left(place, view[place]) for place in view if place in struck}, board.marks)


def flips(wanted: Mapping[Place, Sequence[int]], there: Mapping[Place, Sequence[int]]) -> List[str]:
    """The moves from marks that are there to those that are wanted."""
    return [flip(place, number) for place in wanted for number in sorted(set(wanted[place]) ^ set(there.get(place, ())))]


def flip(place: Place, number: int) -> str:
    """The move that sets a pencil mark, or takes it away."""
    return f'move P{place[0]},{place[1]},{number}'
