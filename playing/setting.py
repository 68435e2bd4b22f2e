"""How a setter thins a puzzle out: items go by a grade, in an order, by a symmetry.

The page in a browser has the same in page/setting.js. The program says which items may go: only the questions and their order stand here.
"""

from __future__ import annotations

from itertools import count
from typing import Callable, Dict, FrozenSet, Iterator, List, Mapping, NamedTuple, Sequence, Tuple

from playing import fair
from playing.board import Board, Reply
from playing.naming import Place
from playing.verdict import Item, is_square, item_line, items

#: The reply to the last of some lines, which are tried from the puzzle of an ID.
Asked = Callable[[str, Sequence[str]], Reply]

#: Brings items into an order by chance.
Shuffle = Callable[[List[Item]], None]

#: The items that go first.
NUMBERS, CLUES = 'numbers', 'clues'

#: By grades above the least one so many orders are tried until the puzzle has the grade itself.
MOST_ORDERS = 20


class Wish(NamedTuple):
    """How a puzzle is thinned out: it follows by the steps of this grade then; or just has one solution, where that is nothing."""

    letter: str = ''
    first: str = NUMBERS
    #: By the names of `shared_texts.SYMMETRIES`.
    symmetry: str = 'none'


def grades(game: str, letter: str) -> List[str]:
    """The grades to which a puzzle of this grade can be thinned out, and none at all."""
    letters = list(fair.OFFERED[game])
    return [*(letters[letters.index(letter) :] if letter in letters else []), '']


class Thinned(NamedTuple):
    """The puzzle so far; at the end whether it has the grade that was asked for."""

    id: str
    is_as_wished: bool = False


def thinned(board: Board, wish: Wish, ask: Asked, shuffle: Shuffle) -> Iterator[Thinned]:
    """Without the items that can go. It comes after each step, so that whoever waits can end it."""
    letters = list(fair.OFFERED[board.session.game])
    good = letters[: letters.index(wish.letter) + 1] if wish.letter else []
    for order in count(1):
        id = board.session.id
        for group in groups(board, wish, shuffle):
            reply = ask(id, [*(item_line(item, 0) for item in group), 'grade' if good else 'solutions'])
            may_go = reply.grade in good if good else len(reply.solutions or []) == 1
            id = reply.session.id if may_go and reply.session else id
            yield Thinned(id)
        is_as_wished = not good or ask(id, ['grade']).grade == wish.letter
        if is_as_wished or len(good) == 1 or order == MOST_ORDERS:
            yield Thinned(id, is_as_wished)
            return


def groups(board: Board, wish: Wish, shuffle: Shuffle) -> List[List[Item]]:
    """All items in the order in which they are tried, those that stand for one another in one group; first those that lack one."""
    numbers = [item for item in items(board) if len(item) == 1 and is_square(item[0], board.size)]
    clues = [item for item in items(board) if item not in numbers]
    shuffle(numbers)
    shuffle(clues)
    there = {frozenset(item): item for item in (numbers + clues if wish.first == NUMBERS else clues + numbers)}
    found: Dict[FrozenSet[Place], Tuple[bool, List[Item]]] = {}
    for key, item in there.items():
        keys = list(dict.fromkeys([key, *(frozenset(map(turn, item)) for turn in turns(board.size)[wish.symmetry])]))
        if not any(other in found for other in keys):
            found[key] = all(other in there for other in keys), [there[other] for other in keys if other in there]
    return [group for _, group in sorted(found.values(), key=lambda one: one[0])]


def turns(size: int) -> Mapping[str, Sequence[Callable[[Place], Place]]]:
    """Where a place comes to lie by each symmetry."""
    last = size - 1

    def quarter(place: Place) -> Place:
        return last - place[1], place[0]

    def half(place: Place) -> Place:
        return quarter(quarter(place))

    return {'none': [], 'half': [half], 'quarter': [quarter, half, lambda place: quarter(half(place))], 'mirror': [lambda place: (last - place[0], place[1])]}
