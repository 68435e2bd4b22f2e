"""The sentences on a puzzle on the setter's desk: how many solutions it has, and why, from the program's answers.

The page in a browser says the same by page/verdict.js. Of a puzzle without a solution it is tried what other numbers would do, and without which two
items there is one; puzzles-check says that, too.
"""

from __future__ import annotations

from typing import Any, Callable, Dict, Iterator, List, Mapping, NamedTuple, Optional, Sequence, Tuple

from playing import shared_texts
from playing.board import Board, Hint, Reply
from playing.games import GRADES
from playing.naming import Place, listed, name, side

#: The place of a clue or of a given; or the greater and the lesser square of a sign.
Item = Tuple[Place, ...]

#: How the program is asked. There is no reply where nobody waits for it any longer.
Ask = Callable[[str], Optional[Reply]]

#: The same for lines that are tried one after the other, each time from the puzzle itself, which stays: the reply to the last of them.
Try = Callable[[Sequence[str]], Optional[Reply]]

#: So many numbers that would do are named.
MOST_NAMED = 3


class Mend(NamedTuple):
    """The numbers with which an item that may be the mistake would do; for a sign, the greater of its squares."""

    item: Item
    number: int = 1

    @property
    def is_sign(self) -> bool:
        return len(self.item) > 1

    def told(self, size: int) -> str:
        return item_name(self.item, size) if self.is_sign else f'{self.number} ({place_name(self.item[0], size)})'


class Verdict(NamedTuple):
    """At first nothing is known."""

    #: `none`, `one` or `several`, for how many solutions there are; `blank` where there is no item.
    kind: str = ''
    #: The letter of the grade, and its name; nothing where it is beyond the steps.
    letter: str = ''
    grade: str = ''
    #: The contradiction to which steps lead.
    hint: Optional[Hint] = None
    #: A solution, and both numbers where another one differs.
    solution: Mapping[Place, int] = {}
    differ: Mapping[Place, List[int]] = {}
    #: The items that may be the mistake, or that aren't needed.
    marked: Tuple[Item, ...] = ()
    #: The numbers with which such items leave exactly one solution; if none does, several.
    mends: Tuple[Mend, ...] = ()
    is_one_by_mends: bool = False
    #: Where no single item is to blame, the pairs without both of which there is a solution.
    pairs: Tuple[Tuple[Item, Item], ...] = ()
    #: Whether all of this is known.
    is_whole: bool = False

    def told(self, why: str, which: str, size: int) -> str:
        """In sentences, of a puzzle of that size: how a player asks for the steps, and how the marked items are told from others."""
        if self.kind not in shared_texts.SOLUTIONS:
            return ''
        grounds = self._of_none(why, which, size) if self.kind == 'none' else self._of_one(which) if self.kind == 'one' else self._of_several()
        return ' '.join([f'{shared_texts.SOLUTIONS[self.kind]}.', *filter(None, grounds)])

    def _of_none(self, why: str, which: str, size: int) -> Iterator[str]:
        steps = len(self.hint.groups) if self.hint else 0
        yield f'{why} shows it{f" in {steps} steps" if steps > 1 else ""}.' if self.hint else shared_texts.TRIED
        if self.pairs:
            yield f'{shared_texts.NONE_BLAMED} {self._of_pairs(which)}'
        elif self.marked:
            those = f'any one of the {len(self.marked)}' if len(self.marked) > 1 else 'the one'
            yield f'Without {those} {which} there is a solution.'
        elif self.is_whole:
            yield shared_texts.NO_PAIR
        if self.mends:
            yield mends_told(self, size)

    def _of_pairs(self, which: str) -> str:
        if len(self.pairs) == 1:
            return f'Without the two {which} there is a solution.'
        return f'Without two of the {len(self.marked)} {which} there is a solution, in {len(self.pairs)} ways.'

    def _of_one(self, which: str) -> Iterator[str]:
        yield f'It is {self.grade} by our steps.' if self.grade else shared_texts.BEYOND
        if self.is_whole:
            those = f'Each of the {len(self.marked)}' if len(self.marked) > 1 else 'The one'
            told = f'{those} {which} is not needed' if self.marked else 'All items are needed'
            yield f'{told}{" for that grade" if self.grade else ""}.'

    def _of_several(self) -> Iterator[str]:
        yield f'Two of them differ in {len(self.differ)} of {len(self.solution)} squares.'


def mends_told(verdict: Verdict, size: int, is_marked: bool = True) -> str:
    """By which numbers there would be a solution, where they are few enough to be named; and whether the player sees which items are marked."""
    count, mends = 'one solution' if verdict.is_one_by_mends else 'several', verdict.mends
    if len(mends) > MOST_NAMED:
        return '' if verdict.is_one_by_mends else shared_texts.NO_OTHER
    where = {mend.item for mend in mends if not mend.is_sign}
    if len(where) == 1 and not any(mend.is_sign for mend in mends):
        place = mends[0].item[0]
        told = 'there' if is_marked and len(verdict.marked) == 1 else f'{"in " if is_square(place, size) else ""}{place_name(place, size)}'
        return f'With {listed([mend.number for mend in mends], "or")} {told} it has {count}.'
    return f'With {listed([mend.told(size) for mend in mends], "or")} it has {count}.'


def blame_told(verdict: Verdict, size: int) -> str:
    """The items to blame that there is no solution, if none are marked: with which numbers, or without which of them, there is one."""
    if verdict.mends and len(verdict.mends) <= MOST_NAMED:
        return mends_told(verdict, size, is_marked=False)
    if len(verdict.pairs) == 1:
        return f'Without {listed([item_name(item, size) for item in verdict.pairs[0]])} there is a solution.'
    if verdict.marked:
        two, ways = ('two', f', in {len(verdict.pairs)} ways') if verdict.pairs else ('any one', '')
        return f'Without {two} of {len(verdict.marked)} items there is a solution{ways}.'
    return shared_texts.NO_PAIR


def judged(board: Board, ask: Ask, tried: Try) -> Iterator[Verdict]:
    """The verdict as soon as it is known, and then with the items that are marked; it ends where there is no answer.

    In between the verdict comes as it was, so that whoever shows it may look for a key.
    """
    if not (board.clues or board.signs or board.givens):
        yield Verdict('blank', is_whole=True)
        return
    reply = ask('solutions')
    if reply is None or reply.solutions is None:
        return
    grids = [dict(zip(board.squares, numbers)) for numbers in reply.solutions]
    if len(grids) > 1:
        differ = {place: [grids[0][place], grids[1][place]] for place in board.squares if grids[0][place] != grids[1][place]}
        yield Verdict('several', solution=grids[0], differ=differ, is_whole=True)
        return
    reply = ask('grade' if grids else 'hint')
    if reply is None:
        return
    letter = reply.grade or ''
    if grids:
        verdict = Verdict('one', letter, GRADES[board.session.game].get(letter, ''), solution=grids[0])
    else:
        verdict = Verdict('none', hint=reply.hint if reply.hint and reply.hint.kind == 'contradiction' else None)
    yield verdict
    reply = ask(f'spare {letter}'.strip())
    if reply and reply.spare:
        verdict = verdict._replace(marked=items_of(reply.spare, board.size), is_whole=bool(grids))
        yield verdict
        if not grids:
            yield from blamed(board, verdict, tried)


def blamed(board: Board, verdict: Verdict, tried: Try) -> Iterator[Verdict]:
    """The verdict of no solution, with what the items that are to blame would have to say; or with the pairs that are, where no single one is."""
    found: Dict[int, List[Mend]] = {1: [], 2: []}
    for mend in (mend for item in verdict.marked for mend in _others(board, item)):
        reply = tried([item_line(*mend), 'solutions'])
        if reply is None or reply.solutions is None:
            return
        found.get(len(reply.solutions), []).append(mend)
        yield verdict
    pairs: Dict[Tuple[Item, ...], Tuple[Item, Item]] = {}
    for item in items(board) if not verdict.marked else []:
        reply = tried([item_line(item, 0), 'spare'])
        if reply is None or reply.spare is None:
            return
        for other in items_of(reply.spare, board.size):
            pairs.setdefault(tuple(sorted((item, other))), (item, other))
        yield verdict
    marked = verdict.marked or tuple(item for item in items(board) if any(item in pair for pair in pairs.values()))
    yield verdict._replace(
        marked=marked, mends=tuple(found[1] or found[2]), is_one_by_mends=bool(found[1]), pairs=tuple(pairs.values()), is_whole=True
    )


def _others(board: Board, item: Item) -> List[Mend]:
    """All else that an item could say."""
    if len(item) > 1:
        return [Mend(item[::-1])]
    own = board.clues[item[0]].number if item[0] in board.clues else board.numbers.get(item[0])
    return [Mend(item, number) for number in range(1, board.size + 1) if number != own]


def item_line(item: Item, number: int) -> str:
    """The line by which an item says this number; 1 is the sign by which the first square is the greater, and 0 none."""
    return f'item {",".join(f"{x},{y}" for x, y in item)},{min(number, 99)}'


def item_name(item: Item, size: int) -> str:
    """A clue, a given or a sign by where it is."""
    if len(item) > 1:
        return f'{name(item[0])} > {name(item[1])}'
    return place_name(item[0], size) if is_square(item[0], size) else f'the clue {place_name(item[0], size)}'


def place_name(place: Place, size: int) -> str:
    """A square, or where a clue is."""
    return name(place) if is_square(place, size) else side(place, size)


def is_square(place: Place, size: int) -> bool:
    return 0 <= min(place) and max(place) < size


def items(board: Board) -> List[Item]:
    """All of a puzzle: clues, signs and givens."""
    signs = [(sign.greater, sign.less) for sign in board.signs]
    return [*((place,) for place in board.clues), *signs, *((place,) for place in board.squares if place in board.givens)]


def items_of(told: Mapping[str, Any], size: int) -> Tuple[Item, ...]:
    """The items that the program lists: clues, signs and givens."""

    def place(cell: int) -> Place:
        return cell % size, cell // size

    signs = [(place(sign['greater']), place(sign['less'])) for sign in told['signs']]
    return (*(((clue['x'], clue['y']),) for clue in told['clues']), *signs, *((place(cell),) for cell in told['givens']))
