"""The cards of the course, with the keys of the board."""

from __future__ import annotations

from typing import Callable, Dict

from board import manual
from board.fullscreen import FullScreen
from board.picture import Look
from board.screen import Screen
from playing.board import GAMES
from playing.course import FOR_GAMES, Course
from playing.game import Start
from playing.steps import Shown

#: The task of a card, by whether it has a number.
TASK = {True: 'Put the number that follows into the square with the *.', False: 'h shows it.'}

#: The lines of keys.
WAY = 'n next card  b card before  h hint  H why  ? keys  q leave'


class CourseScreen(FullScreen):
    """The square of the card is shown as that on which a hint rests, until there is another hint."""

    def __init__(self, screen: Screen, course: Course) -> None:
        self._course = course
        super().__init__(screen, course)

    def _all_actions(self) -> Dict[str, Callable[[], object]]:
        only_games: Dict[str, Callable[[], object]] = dict.fromkeys(('open', 'command', 'desk'), self._refuse)
        return {**super()._all_actions(), **only_games, 'new': lambda: self._turn(1), 'back': lambda: self._turn(-1)}

    def begin(self, start: Start) -> str:
        refusal = super().begin(start)
        if not refusal:
            self._at_start()
        return refusal

    def _at_start(self) -> None:
        super()._at_start()
        self._cursor = self._course.goal

    def _turn(self, step: int) -> None:
        if self._course.turn(step):
            self._at_start()
        self._is_over = self._course.is_over

    def _enter(self) -> None:
        if self._course.is_done:
            self._turn(1)
        else:
            super()._enter()

    def _look(self) -> Look:
        look, course = super()._look(), self._course
        if not course.has_card:
            return look
        text = f'Card {course.place}. {course.text(TASK[course.has_number])}'
        shown = Shown(frozenset([course.goal])) if look.shown == Shown() else look.shown
        return look._replace(message=look.message or text, shown=shown, way=look.way or WAY)

    def _refuse(self) -> None:
        self.game.message = FOR_GAMES

    def _help(self) -> None:
        kind = self.game.kind
        self._page(f'Keys of the course, and the rules of {GAMES[kind]}', [*manual.COURSE, *manual.RULES[kind], *manual.LOOKS[kind], *manual.WORDS])
