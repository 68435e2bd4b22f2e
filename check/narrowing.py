"""The numbers that go for those that are left, line by line, clue by clue, sign by sign. Nobody has to believe it: certificates are checked by other programs."""

from __future__ import annotations

from functools import lru_cache, reduce
from operator import or_
from typing import Any, Iterator, List, Mapping, Optional, Sequence, Tuple

#: Some numbers, or some columns, as bits from 0 on.
Bits = int

#: Squares, each with numbers that go.
Strikes = List[Tuple[int, Bits]]


class Look:
    """Where a step looks: its kind, and what it names there; its squares, in order; the clue."""

    def __init__(self, kind: str, what: Any, squares: Sequence[int], clue: Optional[int] = None) -> None:
        self.kind, self.what, self.squares, self._clue = kind, what, squares, clue

    def strikes(self, left: Sequence[Bits]) -> Strikes:
        """What can't be there, by what is left."""
        choices = tuple(left[square] for square in self.squares)
        return [(square, bits & ~good) for square, bits, good in zip(self.squares, choices, self._good(choices)) if bits & ~good]

    def _good(self, choices: Tuple[Bits, ...]) -> Sequence[Bits]:
        """Of each square the numbers that may be there."""
        if self.kind == 'sign':
            greater, less = choices
            return [-(less & -less) << 1, (1 << greater.bit_length() >> 1) - 1]
        return in_columns(choices, 1 << self.what - 1) if self.kind == 'number' else arranged(choices, self._clue)


class Grid:
    """The lines of a board, as certificates name them, and all places where a step can look, the cheapest first."""

    def __init__(self, board: Mapping[str, Any]) -> None:
        self.size = w = int(board['size'])
        rows = [[y * w + x for x in range(w)] for y in range(w)]
        columns = [[y * w + x for y in range(w)] for x in range(w)]
        self.lines = rows + columns
        views = columns + [line[::-1] for line in columns] + rows + [line[::-1] for line in rows]
        signs = [[sign['greater'], sign['less']] for sign in board['signs']]
        clues = [(self.place(clue['x'], clue['y']), clue['clue']) for clue in board['clues']]
        self.looks = [Look('sign', ends, ends) for ends in signs]
        self.looks += [Look('line', line, squares) for line, squares in enumerate(self.lines)]
        self.looks += [Look('clue', place, views[place], clue) for place, clue in clues]
        #: By a number's columns, row by row: no kind of hints.
        self.numbers = [Look('number', number, range(w * w)) for number in range(1, w + 1)]

    def place(self, x: int, y: int) -> int:
        """The place of a clue, in the order of descriptions."""
        w = self.size
        return x if y == -1 else w + x if y == w else 2 * w + y if x == -1 else 3 * w + y

    def lines_of(self, square: int) -> Tuple[int, int]:
        return square // self.size, self.size + square % self.size


def bits_of(bits: Bits) -> Iterator[int]:
    """The places of the bits that are set."""
    return (place for place in range(bits.bit_length()) if bits >> place & 1)


def in_columns(choices: Sequence[Bits], bit: Bits) -> List[Bits]:
    """Of all squares the numbers that may be there, if one number, a bit, stands once in each row, each time in another column."""
    w = int(len(choices) ** 0.5)
    columns = tuple(sum(1 << x for x in range(w) if choices[start + x] & bit) for start in range(0, w * w, w))
    return [-1 if some >> x & 1 else ~bit for some in arranged(columns, None) for x in range(w)]


@lru_cache(maxsize=1 << 17)
def arranged(choices: Tuple[Bits, ...], clue: Optional[int]) -> Tuple[Bits, ...]:
    """Of each choice what occurs in some arrangement of different ones that shows the clue. All ways are followed at once, forth and back again.

    A set of ways is an int. Its bit (seen << size) + used is set for a way with the set `used` of numbers that shows `seen` of them, which are counted only
    for a clue."""
    moves = [_moves(len(choices), choice, clue is not None) for choice in choices]
    ways = [1]
    for some in moves:
        ways.append(reduce(or_, [(ways[-1] & mask) << shift for _, mask, shift in some], 0))
    alive = ways[-1] & 1 << ((clue or 0) << len(choices)) + (1 << len(choices)) - 1
    good: List[Bits] = []
    for some, before in zip(reversed(moves), reversed(ways[:-1])):
        found = [(bit, before & mask & alive >> shift) for bit, mask, shift in some]
        good.append(reduce(or_, [bit for bit, way in found if way], 0))
        alive = reduce(or_, [way for _, way in found], 0)
    return tuple(reversed(good))


@lru_cache(maxsize=None)
def _moves(size: int, choice: Bits, has_clue: bool) -> List[Tuple[Bits, int, int]]:
    """The numbers that can be taken, as bits, each with the ways that can take it and by how many bits these move then."""
    if choice & (choice - 1):
        return [move for number in bits_of(choice) for move in _moves(size, 1 << number, has_clue)]
    ways = range((size + 1 if has_clue else 1) << size)
    free = sum(1 << way for way in ways if not way & choice)
    seen = sum(1 << way for way in ways if way % (1 << size) < choice) if has_clue else 0
    return [(choice, free & ~seen, choice), (choice, seen, choice + (1 << size))][: 1 + has_clue] if choice else []
