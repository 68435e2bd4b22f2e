"""Acts on the present game: moves, hints, and going back."""

from __future__ import annotations

from typing import Optional, Sequence

from playing import shared_texts, texts
from playing.board import Board, Hint, Reply
from playing.hint_walk import HintWalk
from playing.kept_game import KeptGame
from playing.moves import UNDO, WALKS, keeping_lines, lines_of, possible_lines
from playing.program import Gone, Program, Refused, Stopped, Waiting, started_with

#: The name under which it is kept whether marks go with a number, and the words for that.
MARKS, GO, STAY = 'marks', 'go', 'stay'

#: The same for whether hints go on from the marks. A player who hasn't chosen has them so once marks are whole.
HINTS, FROM_MARKS, FROM_NUMBERS = 'hints', 'marks', 'numbers'


class PresentGame(KeptGame):
    """Each call that may fail leaves a sentence in `message` then."""

    # --- lines ---

    def play(self, line: str) -> Optional[Reply]:
        """Has the program do something, as one move with what belongs to it, and keeps the game that comes of it. Nothing where it is as it was."""
        if line in WALKS:
            return self._play([line] * self._joined.states(line, self.board.session.position), walks=True)
        return self._play(lines_of(line, self.board, self.do_marks_go))

    def _play(self, lines: Sequence[str], walks: bool = False) -> Optional[Reply]:
        """Plays lines as one move, or back or forth. Where one of them is refused, or all of them change nothing, the game is as it was kept."""
        self.message = '' if lines else shared_texts.NOTHING_CHANGES
        before, reply = self.board, self._ask_all(lines)
        if reply is None or not self._look():
            return None
        if self.board.session.position != before.session.position and not self._is_made(before, walks):
            return None
        return None if reply.is_lost else reply

    def _is_made(self, before: Board, walks: bool) -> bool:
        """Keeps what came of a move, or of going back or forth. False of a move that changes nothing: the game is as it was kept then."""
        position = self.board.session.position
        if not walks and self.board.shows_as(before) and self._is_saved:
            self._revive()
            self.message = shared_texts.NOTHING_CHANGES
            return False
        if not walks:
            self._joined.made(before.session.position, position)
        self._keep()
        return True

    def _ask_all(self, lines: Sequence[str]) -> Optional[Reply]:
        """The reply to the last line; nothing where one is refused, and none is carried out then. Whether a single one was, a lost reply doesn't say."""
        reply: Optional[Reply] = None
        for at, line in enumerate(lines):
            reply = self.ask(line)
            if reply is None:
                return None
            if reply.refused and not (reply.is_lost and len(lines) == 1):
                if at or reply.is_lost:
                    self._revive()
                return None
        return reply

    def restart(self) -> None:
        """Back to the start, as a move."""
        if self.play('restart'):
            self.message = 'Back at the start; u takes that back.'

    def solve(self) -> None:
        """Fills in the solution, after a question."""
        if self.board.is_solved:
            self.message = shared_texts.SOLVED
        elif self.front.confirm('Fill in the solution? u takes it back.'):
            reply = self.play('solve')
            if reply and not self.board.is_solved:
                # There is no solution, or more than one: the program's own sentence says which.
                self.message = f'{" ".join(reply.lines)}: nothing is filled in.'

    @property
    def do_marks_go(self) -> bool:
        """Whether marks go with a number."""
        return self.state.chosen(MARKS) == GO

    def toggle_marks(self) -> None:
        """From here on marks go with a number, or no longer."""
        word = STAY if self.do_marks_go else GO
        self.state.choose(MARKS, word)
        self.message = shared_texts.MARKS_GO if word == GO else shared_texts.MARKS_STAY

    @property
    def do_hints_go_on(self) -> bool:
        """Whether hints go on from the marks."""
        return self.state.chosen(HINTS) == FROM_MARKS

    def toggle_hints(self) -> None:
        """From here on hints go on from the marks, or begin from the numbers."""
        word = FROM_NUMBERS if self.do_hints_go_on else FROM_MARKS
        self.state.choose(HINTS, word)
        self._hint_walk = None
        self.message = shared_texts.HINTS_FROM_MARKS if word == FROM_MARKS else shared_texts.HINTS_FROM_NUMBERS

    def _marks_are_whole(self) -> None:
        """Each number that is possible is marked where marks are: hints go on from them, unless the player has chosen."""
        if not self.state.chosen(HINTS):
            self.state.choose(HINTS, FROM_MARKS)
            self._hint_walk = None
            self.message = f'{self.message} {shared_texts.HINTS_FROM_MARKS}'.strip()

    def origin_told(self, walk: HintWalk) -> str:
        """From what a hint begins, where that isn't always the same."""
        if not self.do_hints_go_on or walk.is_refutation:
            return ''
        return shared_texts.BY_MARKS if walk.is_from_marks else shared_texts.BY_NUMBERS

    def set_possible_marks(self) -> bool:
        """Marks in each empty square what is in view of it, which the program says; one undo takes that back."""
        self.message = ''
        reply = self.ask('hint')
        if reply is None or reply.hint is None or not reply.hint.view:
            self.message = self.message or texts.NO_VIEW
            return False
        lines = possible_lines(self.board, reply.hint.in_view(self.board))
        done = self._play(lines)
        self.message = self.message if lines else shared_texts.ALL_POSSIBLE
        if done:
            self._marks_are_whole()
        return done is not None

    def hint_walk(self) -> Optional[HintWalk]:
        """The hint of the board's numbers, as far as it was shown. Nothing where there is none; a sentence says so then."""
        self.message = ''
        if self._hint_walk is None or not self._hint_walk.fits(self.board):
            self._hint_walk = self._new_hint_walk()
        return self._hint_walk

    def _new_hint_walk(self) -> Optional[HintWalk]:
        reply = self.ask('hint marks' if self.do_hints_go_on else 'hint')
        if reply is None or reply.hint is None:
            return None
        hint = reply.hint
        if self.board.is_full and hint.kind == 'nothing':
            self.message = shared_texts.SOLVED if self.board.is_solved else shared_texts.FULL
            return None
        if hint.has_wrong_marks:
            # A wrong number is told first, though no steps from the numbers show it.
            return None if self._is_wrong() else HintWalk(hint, self.board, missing=self._number_of(hint))
        if hint.kind == 'contradiction':
            return HintWalk(hint, self.board, self.since_right())
        if self._is_wrong():
            return None
        if hint.kind == 'nothing':
            self.message = shared_texts.NO_HINT
            return None
        self.hints += 1
        self.state.keep_beside(self._beside())
        return HintWalk(hint, self.board)

    def _number_of(self, hint: Hint) -> int:
        """The number of the square that a hint names, by the puzzle's only solution; 0 where there are several, or nobody waits for it."""
        reply = self.ask('solutions')
        self.message = ''
        solutions = reply.solutions if reply else None
        return solutions[0][hint.unmarked] if solutions and len(solutions) == 1 and hint.unmarked is not None else 0

    def _is_wrong(self) -> bool:
        """Whether the numbers can't be completed, though no steps show it; a sentence says what to undo. Nobody has to wait for it."""
        reply = self.ask('completable')
        if reply is None:
            self.message = ''
            return False
        if reply.completable != 'none':
            return False
        self.message = texts.of_wrong(self.since_right(), self.ways)
        return True

    def end_hint(self) -> None:
        """Puts the number of the hint in; or undoes the moves after which the numbers contradict one another."""
        walk, self._hint_walk = self._hint_walk, None
        if walk and walk.move:
            self.play(walk.move)
        elif walk and walk.hint.has_wrong_marks:
            self.message = shared_texts.MARK_MISSING
        elif walk:
            self.back()

    @property
    def told_walk(self) -> Optional[HintWalk]:
        """The hint whose number was said with its steps, if there is one."""
        walk = self._hint_walk
        return walk if walk and walk.has_told_number and walk.fits(self.board) else None

    def keep_ruled_out(self, walk: HintWalk) -> bool:
        """Makes pencil marks of what a hint ruled out; one undo takes that back. Whether there were such."""
        lines = keeping_lines(self.board, walk.left(0) or {}, walk.struck)
        done = self._play(lines)
        self.message = self.message if lines else shared_texts.NOTHING_TO_KEEP
        if done:
            self._marks_are_whole()
            # The number of this hint comes next.
            walk.stays_on(self.board)
            self._hint_walk = walk
        return done is not None

    def check(self) -> None:
        """Whether the numbers can still be completed."""
        self.message = ''
        reply = self.ask('completable')
        if reply is None or not reply.completable:
            return
        self.message = shared_texts.SOLVED if self.board.is_solved else shared_texts.STILL_COMPLETABLE.get(reply.completable, '')
        if reply.completable == 'none':
            self.message = texts.of_wrong(self.since_right(), self.ways)

    def back(self) -> None:
        """Undoes until the numbers can be completed."""
        self.message = ''
        reply = self.ask('completable')
        if reply is None or not reply.completable:
            return
        if reply.completable != 'none':
            self.message = shared_texts.STILL_RIGHT
            return
        before, moves = self.board, self.since_right()
        if moves == 0:
            self.message = shared_texts.NEVER_RIGHT
        elif moves is None:
            self.message = self.message or texts.WRONG
        elif self._play([UNDO] * self._joined.states_back(moves, before.session.position), walks=True):
            self.message = texts.gone_back(moves, before.marks_more_than(self.board))

    def since_right(self) -> Optional[int]:
        """How many moves were made since the numbers could be completed; 0 where they never could, and nothing where that can't be had. It is tried on a copy."""
        if not self._is_saved:
            return None
        waiting = self.waiting(is_long=True)
        try:
            with started_with(self.path, self.kind, self._saved, waiting) as copy:
                return self._wrong_moves(copy, waiting)
        except Stopped:
            self.message = shared_texts.STOPPED
        except (Gone, Refused):
            pass
        return None

    def _wrong_moves(self, copy: Program, waiting: Waiting) -> Optional[int]:
        """How many moves have to be undone in a copy of the session; 0 where that helps not, and nothing where a line is refused."""
        position, moves = self.board.session.position, 0
        while position > 1:
            states = self._joined.states(UNDO, position)
            replies = [copy.ask(line, waiting) for line in [*[UNDO] * states, 'completable']]
            if any(reply.refused for reply in replies):
                return None
            position, moves = position - states, moves + 1
            if replies[-1].completable != 'none':
                return moves
        return 0
