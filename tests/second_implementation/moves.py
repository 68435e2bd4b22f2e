"""Moves: their texts, and what they do to a board (docs/FORMATS.md, section 5; docs/RULES.md, sections 5 and 6)."""

import re
from dataclasses import dataclass, field, replace
from typing import Dict, FrozenSet, Tuple

from tests.second_implementation.puzzles import Numbers, Puzzle
from tests.second_implementation.words import Refused

#: The lengths of a solution's digits, and the sizes.
SIZES: Dict[int, int] = {size * size: size for size in range(3, 10)}


@dataclass(frozen=True)
class Move:
    """A move by its letter, with its text. A restart has no text of its own: its letter is nothing."""

    letter: str
    text: str = ''
    x: int = 0
    y: int = 0
    n: int = 0
    digits: Numbers = ()


RESTART = Move('')


#: The texts of moves that have numbers, which are decimals without leading zeros, and the most of each.
NUMBER = rb'(0|[1-9][0-9]*)'
NUMBERED = [
    (re.compile(rb'[RP]%b,%b,%b' % (NUMBER, NUMBER, NUMBER)), 255),
    (re.compile(rb'D(-1|0|[1-9][0-9]*),(-1|0|[1-9][0-9]*)'), 127),
]


def read_move(text: bytes) -> Move:
    """The move of a text."""
    if text == b'M':
        return Move('M', 'M')
    for pattern, most in NUMBERED:
        match = pattern.fullmatch(text)
        x, y, n = [*map(int, match.groups()), 0][:3] if match else [most + 1, 0, 0]
        if max(x, y, n) <= most:
            return Move(text[:1].decode(), text.decode(), x, y, n)
    digits = tuple(map(int, text[1:].decode())) if re.fullmatch(rb'S[1-9]+', text) else ()
    if digits and max(digits) <= SIZES.get(len(digits), 0):
        return Move('S', text.decode(), digits=digits)
    raise Refused('BadState')


@dataclass(frozen=True)
class Board:
    """The content of a board. Marks are kept by cell, where there are any."""

    numbers: Numbers
    marks: Dict[int, FrozenSet[int]] = field(default_factory=dict)
    is_completed: bool = False
    is_helped: bool = False
    done: FrozenSet[Tuple[int, int]] = frozenset()

    def status(self) -> str:
        return 'helped' if self.is_helped else 'solved' if self.is_completed else 'playing'


def first_board(puzzle: Puzzle) -> Board:
    return Board(puzzle.givens)


def played(puzzle: Puzzle, board: Board, move: Move) -> Board:
    """The board that a move makes of another one. A restart is not refused here, as that hangs on the position."""
    if move.letter == '':
        return first_board(puzzle)
    if move.letter in ('R', 'P'):
        return with_entry(puzzle, board, move)
    if move.letter == 'M':
        each = frozenset(range(1, puzzle.size + 1))
        return replace(board, marks={cell: each for cell, found in enumerate(board.numbers) if found == 0})
    if move.letter == 'S':
        if not puzzle.solved_by(move.digits):
            raise Refused('BadState')
        return Board(move.digits, {}, True, True, board.done)
    if not puzzle.is_clued(move.x, move.y):
        raise Refused('BadState')
    return replace(board, done=board.done ^ {(move.x, move.y)})


def with_entry(puzzle: Puzzle, board: Board, move: Move) -> Board:
    """A number, a cleared square, or a pencil mark put or taken."""
    cell = move.y * puzzle.size + move.x
    if max(move.x, move.y) >= puzzle.size or move.n > puzzle.size or puzzle.givens[cell]:
        raise Refused('BadState')
    marks = {at: found for at, found in board.marks.items() if at != cell}
    if move.letter == 'R' or move.n == 0:
        numbers = board.numbers[:cell] + (move.n,) + board.numbers[cell + 1:]
        is_completed = board.is_completed or puzzle.solved_by(numbers)
        return replace(board, numbers=numbers, marks=marks, is_completed=is_completed)
    if board.numbers[cell]:
        raise Refused('BadState')
    changed = board.marks.get(cell, frozenset()) ^ {move.n}
    return replace(board, marks={**marks, cell: changed} if changed else marks)
