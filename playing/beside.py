"""The facts of a game that are kept in a file beside its save, with the ID of its puzzle: how many hints it had, its number, and which states are one move."""

from __future__ import annotations

from typing import List, NamedTuple, Optional, Tuple

from playing.fair import seed_of
from playing.moves import Pair
from playing.typed import is_number

#: Before the number, and before the joined moves, each on a line of its own.
NUMBER, JOINED = 'number', 'joined'


class Beside(NamedTuple):
    hints: int = 0
    #: The seed of a fair game; nothing where it isn't known.
    number: Optional[int] = None
    #: Moves of several states, by the position after each and the one before it.
    joined: Tuple[Pair, ...] = ()


def file_of(save: str) -> str:
    """The file beside a kept game."""
    return f'{save[:-4]}.hints'


def content_of(beside: Beside, id: str) -> bytes:
    """The facts that are kept; nothing where there is nothing to keep."""
    if beside == Beside():
        return b''
    number = '' if beside.number is None else f'{NUMBER} {beside.number}\n'
    joined = f'{JOINED} {" ".join(f"{last}-{first}" for last, first in beside.joined)}\n' if beside.joined else ''
    return f'{beside.hints} {id}\n{number}{joined}'.encode('latin-1')


def beside_in(content: bytes, id: str) -> Beside:
    """The facts of the puzzle that the file has; nothing where it is of another one, or can't be read."""
    first, *others = content.decode('latin-1').split('\n')
    count, _, of = first.strip().partition(' ')
    if of != id or not is_number(count):
        return Beside()
    told = dict(line.strip().partition(' ')[::2] for line in others)
    return Beside(int(count), seed_of(told.get(NUMBER, '')), tuple(pairs_in(told.get(JOINED, ''))))


def pairs_in(text: str) -> List[Pair]:
    """The joined moves of a line; those that can't be read are passed over."""
    parted = (word.partition('-')[::2] for word in text.split())
    return [(int(last), int(first)) for last, first in parted if is_number(last) and is_number(first)]


def hints_told(count: int) -> str:
    """`3 hints`; nothing where there was none."""
    return f'{count} hint{"s" if count > 1 else ""}' if count else ''
