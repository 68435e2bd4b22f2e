"""Whether two solutions are one, turned over: then who has solved one puzzle knows the other."""

from __future__ import annotations

from typing import Iterator, List, Tuple

from playing.board import Board

Form = Tuple[str, Tuple[Tuple[int, ...], ...]]
Rows = List[Tuple[int, ...]]


def form(solved: Board) -> Form:
    """The same for two solutions of one game just where one of them turns into the other."""
    rows = [tuple(solved.numbers[x, y] for x in range(solved.size)) for y in range(solved.size)]
    return solved.session.game, min(tuple(turned) for turned in turned_over(rows, solved.session.game))


def turned_over(rows: Rows, game: str) -> Iterator[Rows]:
    """A square in its eight positions; in Unequal also with its numbers in reverse, which turns each sign around."""
    every = [rows]
    if game == 'unequal':
        every.append([tuple(len(rows) + 1 - number for number in row) for row in rows])
    for each in every:
        for _ in range(4):
            each = list(zip(*each[::-1]))
            yield each
            yield each[::-1]
