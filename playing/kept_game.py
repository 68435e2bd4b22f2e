"""The present game in the program: it is kept after each change, outlives the program, and is left for the next start."""

from __future__ import annotations

import contextlib
import os
import time
from typing import Optional, Protocol, Sequence, Tuple

from playing import beside, choices, files, shared_texts, texts
from playing.beside import Beside, beside_in
from playing.board import Board, Reply
from playing.choices import Choice
from playing.hint_walk import HintWalk
from playing.moves import Joined
from playing.program import Gone, Program, Refused, Stopped, Waiting, save_to, started_with
from playing.state import NotKept, Slot, State
from playing.texts import Ways

#: Lines over which the program may take long; and how many seconds it may take over any other before a player can stop that, too.
LONG = ('solve', 'completable', 'list ', 'solutions', 'spare', 'fill', 'thin')
PATIENCE = 3.0

#: After so many seconds without a key or a line a game that isn't kept is tried to be kept once more.
AGAIN = 1.0


class Front(Protocol):
    """A front end, which asks the player and lets the player wait."""

    def confirm(self, question: str) -> bool:
        """Whether something is to be done. A front end that doesn't know says no."""

    def choose(self, title: str, rows: Sequence[str]) -> Optional[int]:
        """Which of some rows the player wants, counted from 0; nothing if none."""

    def waiting(self, may_stop: bool) -> bool:
        """Called while the program is at work; True where it may be stopped and the player doesn't want to wait."""


class KeptGame:
    """Each call that may fail leaves a sentence in `message` then. A front end plays it, and another one may go on with it."""

    front: Front
    ways: Ways
    #: The player's word for it.
    word = 'game'

    def __init__(self, path: str, state: State) -> None:
        self.path = path
        self.state = state
        self.message = ''
        #: Why the present game isn't kept; nothing where it is.
        self.trouble = ''
        self._program: Optional[Program] = None
        self._board: Optional[Board] = None
        #: The present game as a save, and whether that is all of it, and whether it is kept.
        self._saved = b''
        self._is_saved = False
        self._is_kept = False
        self._hint_walk: Optional[HintWalk] = None
        #: The letter of the puzzle's grade, by the program's own steps; nothing where it has none.
        self.grade = ''
        #: How many hints the present game had.
        self.hints = 0
        #: The choice by which it was made, if that is known.
        self.chosen: Optional[Choice] = None
        self._joined = Joined()

    def played_by(self, front: Front, ways: Ways) -> None:
        """This front end goes on with it, in which a player does things by these ways."""
        self.front = front
        self.ways = ways

    @property
    def has_game(self) -> bool:
        return self._board is not None

    @property
    def board(self) -> Board:
        assert self._board, 'a game has begun'
        return self._board

    @property
    def kind(self) -> str:
        return self.board.session.game

    @property
    def told_trouble(self) -> str:
        """The sentence on why it isn't kept; nothing where it is."""
        return f'The {self.word} is not kept: {self.trouble}.' if self.trouble else ''

    def waiting(self, is_long: bool = False) -> Waiting:
        """For what the program begins now: whether the player doesn't want to wait for it any longer."""
        end = time.monotonic() + PATIENCE
        return lambda: self.front.waiting(is_long or time.monotonic() > end)

    def ask(self, line: str) -> Optional[Reply]:
        """The program's reply, with a sentence where it is a refusal; nothing where the program had to be started again."""
        assert self._program
        try:
            # Before the first save there is nothing to go back to.
            reply = self._program.ask(line, self.waiting(line.startswith(LONG)) if self._saved else lambda: self.front.waiting(False))
        except Stopped:
            self._revive()
            self.message = shared_texts.STOPPED
            return None
        except Gone as gone:
            self._revive()
            self.message = f'The program had ended ({gone}). The game is as it was. Try that again.'
            return None
        if reply.is_lost:
            self.message = texts.LOST
        elif reply.refused:
            self.message = texts.of_line(line, reply.refused, self.kind, self.board.size, self.ways)
        return reply

    # --- files ---

    def save_as(self, file: str) -> bool:
        """Saves to a file of the player's."""
        other = files.other_than_file(file)
        if other:
            self.message = f'{file} {other}: a game is saved to a file.'
            return False
        folder = os.path.dirname(file)
        if folder and not os.path.isdir(folder):
            self.message = f"There is no folder '{folder}'."
            return False
        try:
            complaint = save_to(self.path, self.kind, self._saved, file, self.waiting(is_long=True))
        except Stopped:
            self.message = 'Stopped: the file is as it was, or has the game.'
            return False
        except Gone as gone:
            complaint = str(gone)
        self.message = f'The program says: {complaint}.' if complaint else f'Saved in {file}'
        return not complaint

    def may_be_left(self) -> bool:
        """Whether nothing is lost by that, or the player says so."""
        self.keep_again()
        return not self.trouble or self.front.confirm(texts.NOT_KEPT.format(word=self.word, why=self.trouble))

    def leave(self) -> None:
        """Leaves the kept game for the next start, and ends the program. A game that isn't kept is tried to be, whatever ends the front."""
        with contextlib.suppress(Gone):
            self.keep_again()
        if self._program:
            self._program.stop()
        self.state.release()
        self._board = None

    def _beside(self) -> bytes:
        """The bytes that are kept beside the save."""
        number = self.chosen.number if self.chosen else None
        return beside.content_of(Beside(self.hints, number, tuple(self._joined.pairs)), self.board.session.id)

    def _take(self, program: Program, slot: Slot, kept_beside: bytes = b'') -> None:
        if self._program:
            self._program.stop()
        self._program = program
        self._hint_walk = None
        self._saved, self._is_saved = b'', False
        if program.first.board is None:
            raise Gone(texts.LOST if program.first.is_lost else f"it doesn't give its board: {program.first.refused}")
        self._board = program.first.board
        kept = beside_in(kept_beside, self.board.session.id)
        self._joined = Joined(kept.joined, self.board.session.states)
        self.chosen = self._told_choice(program, kept.number)
        self.message = slot.told
        self.state.take(slot)
        self.hints = kept.hints
        self._keep()
        self.grade = self._told_grade()

    def _told_choice(self, program: Program, number: Optional[int]) -> Optional[Choice]:
        """The choice by which a fair game was made, if its number is known."""
        session = self.board.session
        if program.line:
            return choices.of_line(session.game, program.line)
        return choices.of_number(session, self.board.size, number)

    def _told_grade(self) -> str:
        """The grade; nothing where there is none, or the program has no line that tells it."""
        told = self.message
        reply = self.ask('grade')
        if reply is not None:
            self.message = told
        return (reply.grade if reply else None) or ''

    def _look(self) -> bool:
        """Asks for the board. False where that can't be had."""
        reply = self.ask('board')
        if reply is None or reply.board is None:
            return False
        self._board = reply.board
        if self._hint_walk and not self._hint_walk.fits(self._board):
            # It begins anew where the numbers come back.
            self._hint_walk = None
        return True

    def _keep(self) -> None:
        """The file has the present game from here on, or `trouble` says why not."""
        self._is_saved = self._is_kept = False
        reply = self.ask('save')
        if reply is None:
            # The game goes on as it was kept last.
            self._is_saved = True
        elif reply.refused:
            self.trouble = self.message
            return
        else:
            self._saved = ''.join(f'{line}\n' for line in reply.lines).encode('latin-1')
            self._is_saved = True
        self._write()

    def _to_keep(self) -> Tuple[str, bytes]:
        """The bytes that are kept, and by which name."""
        return self.kind, self._saved

    def _write(self) -> None:
        """Keeps it."""
        try:
            self.message = f'{self.message} {self.state.keep(*self._to_keep())}'.strip()
            self._is_kept, self.trouble = True, ''
        except NotKept as reason:
            self.trouble = str(reason)
        self.state.keep_beside(self._beside())

    @property
    def is_kept(self) -> bool:
        """Whether there is nothing that isn't kept."""
        return self._is_kept or not self.has_game

    def keep_again(self) -> None:
        """Where the game isn't kept, that is tried once more."""
        if not self.is_kept:
            if self._is_saved:
                self._write()
            else:
                self._keep()

    def _revive(self) -> None:
        """Starts the program again with the game as it was kept last."""
        assert self._program
        self._program.stop()
        try:
            self._program = started_with(self.path, self.kind, self._saved, self.waiting())
        except Refused as refused:
            raise Gone(f"it doesn't take its own save: {refused}") from refused
        except Stopped as stopped:
            raise Gone('it gave no answer') from stopped
        self._board = self._program.first.board or self._board
