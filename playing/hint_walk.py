"""A hint as a walk: where to look, its sentences one after the other with what is left before each, and at the end the number, or what is to be undone."""

from __future__ import annotations

from enum import Enum
from itertools import chain, islice
from typing import Dict, FrozenSet, Iterator, List, Mapping, NamedTuple, Optional, Set

from playing import shared_texts
from playing.board import Board, Hint
from playing.naming import Place, line_name, name
from playing.steps import Sentence, Shown, Step, line_squares, look_at


class HintPart(NamedTuple):
    """A sentence of a hint, and what is shown with it."""

    text: str
    shown: Shown
    #: The square where the number follows; nothing where none does.
    place: Optional[Place]
    #: The sentence without its name.
    plain: str = ''


class Press(Enum):
    """The answers that a player gets by asking for a hint again and again."""

    LOOK = 'where to look'
    STEPS = 'the steps'
    END = 'the number, or the board before the wrong moves'


class HintWalk:
    """The hint of a board's numbers: it shows a number, or that the numbers contradict one another."""

    def __init__(self, hint: Hint, board: Board, moves: Optional[int] = None, missing: int = 0) -> None:
        """Of numbers that contradict one another it is said how many moves are to be undone; 0 where that helps not, nothing where it isn't known. Of marks that
        do, which number is missing in the square that the hint names; 0 where that isn't known.
        """
        self.hint = hint
        self.moves = moves
        self.place = hint.square(board.size)
        self.steps = hint.steps(board.size)
        self.sentences = hint.sentences
        #: The steps of each sentence.
        self.groups = list(_grouped(self.steps, hint.groups))
        self._size = board.size
        self._view = hint.in_view(board) if hint.view else None
        self._id, self._numbers, self._position = board.session.id, dict(board.numbers), board.session.position
        self._marks = dict(board.marks)
        self._last: Optional[Press] = None
        self._looks = list(self._missing(missing)) if hint.has_wrong_marks else [self._where_to_look()]
        self._looked = 0

    def fits(self, board: Board) -> bool:
        """Whether the board has the same numbers, from which a hint follows; the same marks, where it begins from these; and as many moves, where it says how many
        are wrong.
        """
        is_at = not self.is_refutation or board.session.position == self._position
        has_marks = self.hint.origin != 'marks' or dict(board.marks) == self._marks
        return is_at and has_marks and board.session.id == self._id and dict(board.numbers) == self._numbers

    def stays_on(self, board: Board) -> None:
        """It goes on where the marks are others."""
        self._marks = dict(board.marks)

    @property
    def goal(self) -> Optional[Place]:
        """The square where the number follows, or that has none left; nothing where a row or column has none for a number."""
        if self.hint.cell is None and self.hint.line is None and self.steps:
            # An older program doesn't tell it. The last step empties it: otherwise that would be spare.
            return self.steps[-1].strikes[-1].place
        return self.hint.goal(self._size)

    @property
    def is_from_marks(self) -> bool:
        """Whether it begins from marks that there were."""
        return self.hint.origin == 'marks' and bool(self._marks)

    @property
    def is_refutation(self) -> bool:
        return self.place is None

    @property
    def move(self) -> Optional[str]:
        """The line that puts the number in."""
        return f'move R{self.place[0]},{self.place[1]},{self.hint.number}' if self.place else None

    def press(self) -> Press:
        """The next answer. Where there are no steps the end comes after the place to look."""
        if self._last in (None, Press.LOOK) and self._looked < len(self._looks):
            self._looked, self._last = self._looked + 1, Press.LOOK
        elif self._last is Press.LOOK:
            self._last = Press.STEPS if self.steps or self.hint.has_wrong_marks else Press.END
        elif self.hint.has_wrong_marks:
            self._looked, self._last = 1, Press.LOOK
        else:
            self._last = Press.END
        return self._last

    @property
    def what_follows(self) -> str:
        """The answer after the place to look."""
        if self.hint.has_wrong_marks:
            return ('where', 'which number')[self._looked - 1] if self._looked < len(self._looks) else 'why'
        return 'the steps' if self.steps else 'the number'

    @property
    def has_told_number(self) -> bool:
        """Whether all steps to a number were asked for."""
        return self._last is Press.STEPS and not self.is_refutation

    def skip_to_steps(self) -> None:
        """The steps are shown without having been asked for one by one."""
        self._last = Press.STEPS

    # --- its parts

    @property
    def length(self) -> int:
        """How many sentences there are: those of the steps, and the last."""
        return self.count + 1

    @property
    def count(self) -> int:
        """How many steps a player counts: those of one sentence are one, and the last sentence is none."""
        return len(self.groups)

    def look(self) -> HintPart:
        """Where to look first; of wrong marks one part after the other."""
        return self._looks[max(0, self._looked - 1)]

    def _missing(self, number: int) -> Iterator[HintPart]:
        """That a mark is missing, then where, and then which one, as far as that is known."""
        yield HintPart(shared_texts.MARK_MISSING, Shown(), None)
        if self.hint.unmarked is not None:
            place = (self.hint.unmarked % self._size, self.hint.unmarked // self._size)
            yield HintPart(f'The marks of {name(place)} leave out its number.', Shown(frozenset([place])), place)
            if number:
                yield HintPart(f'{number} is missing among the marks of {name(place)}.', Shown(frozenset([place])), place)

    def _where_to_look(self) -> HintPart:
        if self.steps:
            return HintPart(look_at(self.steps[0], self._size), Shown(self.steps[0].rests_on(self._size)), self.place)
        return HintPart(self._look_at_square(), Shown(self._end_squares()), self.place)

    def part(self, at: int) -> HintPart:
        """A sentence, with what is left before its steps; or the end."""
        if at < len(self.groups):
            steps = self.groups[at]
            rests_on = frozenset(chain.from_iterable(step.speaks_of(self._size) for step in steps))
            struck = {strike.place: strike.numbers for step in steps for strike in step.strikes}
            return HintPart(self.sentences[at].headed, Shown(rests_on, self.left(at), struck), self.place, self.sentences[at].text)
        return HintPart(self._end().headed, Shown(self._end_squares(), self.left(at)), self.place, self._end().text)

    def whole(self) -> List[str]:
        """All sentences, those of steps numbered."""
        return [sentence.whole for sentence in self.sentences] or [self._look_at_square(), self._end().text]

    def left(self, at: int) -> Optional[Dict[Place, List[int]]]:
        """The numbers that are left in each empty square before a sentence; nothing where the program doesn't say what is in view."""
        if self._view is None:
            return None
        left = {place: set(numbers) for place, numbers in self._view.items()}
        for step in chain.from_iterable(self.groups[:at]):
            for strike in step.strikes:
                left.get(strike.place, set()).difference_update(strike.numbers)
        return {place: sorted(numbers) for place, numbers in left.items()}

    @property
    def struck(self) -> Mapping[Place, Set[int]]:
        """The numbers that all its steps rule out in each square."""
        struck: Dict[Place, Set[int]] = {}
        for strike in chain.from_iterable(step.strikes for step in self.steps):
            struck.setdefault(strike.place, set()).update(strike.numbers)
        return struck

    def _end(self) -> Sentence:
        """The answer with the steps."""
        return self.sentences[-1] if self.sentences else Sentence(f'It is a {self.hint.number}.')

    def _end_squares(self) -> FrozenSet[Place]:
        """The row or column in which the number has one square left, or none; or the square where one number is left, or none."""
        if self.hint.line is not None:
            return frozenset(line_squares(self.hint.line, self._size))
        return frozenset(filter(None, [self.goal]))

    def _look_at_square(self) -> str:
        """Where to look where no step is needed."""
        if self.hint.line is not None:
            return f'Look at {line_name(self.hint.line, self._size)}: a number has {"no" if self.is_refutation else "one"} square left there.'
        if self.place is None:
            return 'Look for an empty square whose row and column have all numbers.'
        return f'Look at {name(self.place)}: one number is left there{"" if self.is_from_marks else ", as the others stand in its row or column"}.'


def _grouped(steps: List[Step], groups: List[int]) -> Iterator[List[Step]]:
    """The steps of each sentence, by how many they are."""
    rest = iter(steps)
    for length in groups:
        yield list(islice(rest, length))
