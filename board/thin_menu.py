"""The menu by which a puzzle of the setter's desk is thinned out: to which grade, what goes first, and by which symmetry."""

from __future__ import annotations

from typing import Dict, List, Optional

from board.menu import Menu, Row, moved
from board.screen import Screen
from board.typed_wish import ANY
from playing import shared_texts
from playing.choices import Choice
from playing.desk import Desk
from playing.games import GRADES
from playing.setting import CLUES, NUMBERS, Wish, grades


class ThinMenu(Menu):
    """At first the puzzle's own grade is chosen."""

    title = 'Thin out'

    def __init__(self, screen: Screen, desk: Desk) -> None:
        letters = grades(desk.kind, desk.verdict.letter)
        edge = CLUES if desk.kind == 'towers' else 'signs'
        #: Of each line its values, by how they are called.
        self._values: Dict[str, Dict[str, str]] = {
            'Grade': {GRADES[desk.kind].get(letter, ANY): letter for letter in letters},
            'First': {NUMBERS: NUMBERS, edge: CLUES},
            'Symmetry': {called: name for name, called in shared_texts.SYMMETRIES.items()},
        }
        self._chosen = {title: next(iter(values)) for title, values in self._values.items()}
        super().__init__(screen, desk.state, Choice(desk.kind, desk.board.size))
        self._line = 0

    @property
    def wish(self) -> Wish:
        """The player's choice."""
        letter, first, symmetry = (self._values[title][called] for title, called in self._chosen.items())
        return Wish(letter, first, symmetry)

    def _rows(self) -> List[Row]:
        return [Row(title, list(values), self._chosen[title]) for title, values in self._values.items()]

    def _keep_kind(self) -> None:
        """There is none."""

    def _has_number(self) -> bool:
        return False

    def _change(self, step: int) -> None:
        title, values, chosen = self._rows()[self._line]
        self._chosen[title] = moved(values, chosen, step)

    def _choice(self) -> Optional[Choice]:
        return Choice(self._game, self._size)

    def _notes(self) -> List[str]:
        return ['Numbers are those in squares. By a symmetry items go together with those that stand for them.', 'Enter thins it out; u brings all back.']
