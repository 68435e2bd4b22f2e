"""The cards of the course, at the prompt of the line mode."""

from __future__ import annotations

from typing import Callable

from board import manual
from board.lines import LineMode, say
from playing.course import FOR_GAMES, Course
from playing.naming import name

#: The task of a card, by whether it has a number.
TASK = {True: 'Which number follows in {square}? Type {square} and it.', False: "'why' shows it."}


class CourseLines(LineMode):
    """The number of the card stands in the prompt."""

    def __init__(self, course: Course, has_board: Callable[[], bool]) -> None:
        self._course = course
        super().__init__(course, has_board)
        self._commands.update(dict.fromkeys(('open', 'load', 'delete', 'fair', 'desk'), lambda _: say(FOR_GAMES)))
        self._commands.update({'new': self._new, 'next': lambda _: self._turn(1), 'back': lambda _: self._turn(-1)})

    def _new(self, text: str) -> None:
        if text:
            say(FOR_GAMES)
        else:
            self._turn(1)

    def _turn(self, step: int) -> None:
        if self._course.turn(step):
            self._begun()
        self._is_over = self._course.is_over

    def _begun(self) -> None:
        super()._begun()
        say(self._course.text(TASK[self._course.has_number].format(square=name(self._course.goal))))

    def _empty(self) -> None:
        if self._course.is_done:
            self._turn(1)

    def _position(self) -> str:
        return self._course.place

    def _help(self, _: str) -> None:
        say(*manual.COURSE_LINES, '', *manual.LINES)
