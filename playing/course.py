"""The course: small boards, one step each. The program's hint judges what is put in, and no game is kept or changed."""

from __future__ import annotations

import re
from typing import FrozenSet, Optional

from playing import shared_texts
from playing.board import Reply
from playing.cards import CARDS
from playing.game import Game
from playing.hint_walk import HintWalk
from playing.naming import Place
from playing.state import Slot, State

#: A line that puts a number in.
NUMBER = re.compile(r'move R[0-9]+,[0-9]+,[1-9][0-9]*')

#: The sentence on the number that follows, by keys and by lines: Enter is an empty line there.
RIGHT = f'{shared_texts.RIGHT} Enter: the next card.'

FIRST = 'This is the first card.'
OVER = "That was the course. 'puzzles-play' begins a game.\n"
FOR_GAMES = 'That is for games: q leaves the course.'


class Course(Game):
    """A card in the place of the present game."""

    def __init__(self, path: str, game: str) -> None:
        super().__init__(path, State({}))
        self._cards = CARDS[game]
        self._game = game
        self._at = -1
        #: The card's hint.
        self._lesson: Optional[HintWalk] = None
        #: The lines that put in the numbers of its only solution; none where it has none.
        self._right: FrozenSet[str] = frozenset()
        #: Whether the last card was passed.
        self.is_over = False

    def start(self, game: str, what: str) -> bool:
        """Begins the first card."""
        return self.turn(1)

    def turn(self, step: int) -> bool:
        """Shows the next card, or the one before; there may be none."""
        at = self._at + step
        self.is_over = at == len(self._cards)
        if at < 0:
            self.message = FIRST
        if at < 0 or self.is_over or not self.begin(self._game, self._cards[at].id):
            return False
        self._at = at
        reply = self.ask('hint')
        if reply and reply.hint:
            self._lesson = self._hint_walk = HintWalk(reply.hint, self.board, 0)
            ways = self.ask('solutions')
            numbers = ways.solutions[0] if ways and ways.solutions else []
            self._right = frozenset(f'move R{x},{y},{number}' for (x, y), number in zip(self.board.squares, numbers))
        return True

    @property
    def has_card(self) -> bool:
        """Not yet while the first one is fetched."""
        return self._lesson is not None

    @property
    def place(self) -> str:
        """Which card it is, of how many."""
        return f'{self._at + 1}/{len(self._cards)}'

    def text(self, task: str) -> str:
        """Where to look, and what to do; once that is done, that it is right."""
        return RIGHT if self.has_number and self.is_done else f'{self._cards[self._at].text} {task}'

    @property
    def has_number(self) -> bool:
        """Whether a number follows; otherwise a square has none left."""
        return bool(self._lesson and self._lesson.move)

    @property
    def goal(self) -> Place:
        """The square where it follows, or that has none left."""
        assert self._lesson and self._lesson.goal, 'a card is shown'
        return self._lesson.goal

    @property
    def is_done(self) -> bool:
        """Whether the number is put in, if there is one."""
        return not self.has_number or self.goal in self.board.numbers

    def play(self, line: str) -> Optional[Reply]:
        """As in a game; but only right numbers are put in, until that of the card is there, and of another one it is said where to look."""
        walk = self._lesson
        if walk and NUMBER.fullmatch(line) and line != walk.move:
            is_in = self.has_number and self.is_done
            if is_in or line not in self._right:
                self.message = RIGHT if is_in else f'{shared_texts.NOT_YET} {walk.look().text}'
                return None
        reply = super().play(line)
        if reply and walk and line == walk.move:
            self.message = RIGHT
        return reply

    def _room_for(self, game: str) -> Slot:
        """No game has to make room for a card."""
        return Slot(None, None)

    def _write(self) -> None:
        self._is_kept, self.trouble = True, ''
