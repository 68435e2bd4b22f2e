"""The words on the other end of a sign: by the numbers left of it after all that the sentences before have said (docs/HINTS.md)."""

from __future__ import annotations

from typing import FrozenSet, NamedTuple, Optional, Sequence

from tests.second_implementation.steps import NONE, Left, Step, each


class End(NamedTuple):
    """The least number that is left of a lesser square, or the greatest of a greater one; and whether it is the only one."""

    words: str
    number: int
    is_alone: bool


class Told(NamedTuple):
    """A step, what is left before it, what it tells of a sign's other end, and its own sentence."""

    step: Step
    left: Left
    end: Optional[End]
    sentence: str


def end_of(size: int, said: Left, step: Step) -> Optional[End]:
    """Nothing, if the sign is enough."""
    if step.reason.kind != 'sign':
        return None
    greater, less = step.reason.sign
    to = next(iter(step.strikes))
    other = said[less if to == greater else greater]
    number, last = (min(other), 1) if to == greater else (max(other), size)
    if number == last or set(step.strikes[to]) == {last}:
        return None
    return End('at least' if to == greater else 'at most', number, len(other) == 1)


def weakest(group: Sequence[Told]) -> Optional[End]:
    """Which is so of all the other ends."""
    ends = [told.end for told in group if told.end]
    if not ends:
        return None
    return min(ends, key=lambda end: end.number if end.words == 'at least' else -end.number)


def said_after(size: int, said: Left, group: Sequence[Told]) -> Left:
    """A sentence rules out what its steps strike, and all that its signs rule out by what it tells of their other ends."""
    end = weakest(group)
    gone = {cell: numbers | (beyond(size, end) if told.end else NONE) for told in group for cell, numbers in told.step.strikes.items()}
    return [numbers - gone.get(cell, NONE) for cell, numbers in enumerate(said)]


def beyond(size: int, end: Optional[End]) -> FrozenSet[int]:
    if end is None:
        return NONE
    return frozenset(number for number in each(size) if (number <= end.number if end.words == 'at least' else number >= end.number))
