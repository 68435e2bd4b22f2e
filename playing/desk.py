"""The setter's desk: a puzzle that is set or checked, item by item, in the place of a game.

The page in a browser has it in page/desk.js, and its drafts in page/drafts.js.
"""

from __future__ import annotations

import os
import random
import re
import time
from typing import Iterator, List, NamedTuple, Optional, Sequence, Tuple

from playing import saves, shared_texts, texts
from playing.board import Board, Clue, Reply
from playing.choices import Choice
from playing.game import Game
from playing.hint_walk import HintWalk
from playing.naming import Place
from playing.program import FIRST_WAIT, Gone, Program, Refused, Stopped, begun_by
from playing.setting import Wish, thinned
from playing.state import Slot, State
from playing.trial import Trial
from playing.verdict import Item, Verdict, item_line, judged

#: How the file of a draft begins, with the number of the puzzle that is shown; and what one of its IDs is.
HEAD = re.compile(r'draft 1, puzzle ([0-9]{1,9})')
ID = re.compile(r'[3-9]:[ -~]*')

#: The sentences on a file of which the desk takes nothing.
OF_GAME = 'That is a save, which is opened in a game: the desk reads drawings and IDs.'
OF_NOTHING = 'That file has no save and no ID.'

#: So many puzzles a draft has at most: then the first ones go.
MOST = 500


class Draft(NamedTuple):
    """The puzzles that undo and redo go along, and which of them is shown."""

    ids: Tuple[str, ...] = ()
    at: int = 0

    def with_puzzle(self, id: str) -> Draft:
        """Goes on with a puzzle, unless that is shown."""
        if self.ids[self.at : self.at + 1] == (id,):
            return self
        ids = (*self.ids[: self.at + 1], id)[-MOST:]
        return Draft(ids, len(ids) - 1)

    @property
    def content(self) -> bytes:
        """As it is kept."""
        return ''.join(f'{line}\n' for line in (f'draft 1, puzzle {self.at + 1}', *self.ids)).encode('latin-1')


def draft_in(content: bytes) -> Optional[Draft]:
    """The draft that is kept so; nothing where it is none of this version."""
    first, *ids = content.decode('latin-1').rstrip('\n').split('\n')
    found = HEAD.fullmatch(first)
    if found is None or not 1 <= int(found[1]) <= len(ids) or not all(map(ID.fullmatch, ids)):
        return None
    return Draft(tuple(ids), int(found[1]) - 1)


def said_of(fault: Exception) -> str:
    """The sentence on a program that ended, refused a line or was stopped."""
    return f'The program says: {fault}.' if str(fault) else shared_texts.STOPPED


class Desk(Game):
    """A puzzle in the place of the present game, which stays as it is. Of each game there is a draft, kept as games are."""

    word = 'draft'

    def __init__(self, path: str) -> None:
        super().__init__(path, State(os.environ, '.ids', self.word))
        self.draft = Draft()
        self.verdict = Verdict()

    def turn_to(self, game: str, size: int) -> bool:
        """Has the draft of a game; where none is kept, a blank board of this size. A file that can't be read as a draft stays as it is, and is named."""
        if self.has_game and (game == self.kind or not self.may_be_left()):
            return game == self.kind
        passed: List[str] = []
        try:
            slot, draft, program = self._found(game, size, passed)
        except (Refused, Stopped, Gone) as fault:
            self.message = said_of(fault)
            return False
        self.draft = draft
        self._take(program, slot)
        if passed:
            self.message = f"{' and '.join(passed)} can't be read as a draft, and stays as it is. {self.message}".strip()
        return True

    def _found(self, game: str, size: int, passed: List[str]) -> Tuple[Slot, Draft, Program]:
        """The draft that is kept and can be read, or a new one, with its program; notes the files that were passed over. Raises `Refused`, `Stopped`, `Gone`."""
        slot = self.state.claim(f'{game}-draft', passed)
        draft = Draft() if slot.kept is None else draft_in(slot.kept)
        try:
            if draft is None:
                raise Refused
            return slot, draft, begun_by(self.path, game, [f'new {draft.ids[draft.at]}' if draft.ids else f'blank {size}'], self.waiting())
        except (Refused, Stopped, Gone) as fault:
            slot.release()
            if not isinstance(fault, Refused) or slot.kept is None or slot.file is None:
                raise
            passed.append(slot.file.path)
        return self._found(game, size, passed)

    @property
    def whole(self) -> Board:
        """The board with a clue 0 at each empty place of the edge."""
        board, size = self.board, self.board.size
        edge = [place for at in range(size) for place in ((at, -1), (at, size), (-1, at), (size, at))] if self.kind == 'towers' else []
        return board._replace(clues={place: board.clues.get(place, Clue(0, False, False)) for place in edge})

    @property
    def has_items(self) -> bool:
        """Whether a clue, a given or a sign is there."""
        return bool(self.board.clues or self.board.signs or self.board.givens)

    def number_at(self, place: Place) -> int:
        """The number of a clue or a given; 0 where there is none."""
        return self.board.clues[place].number if place in self.board.clues else self.board.numbers.get(place, 0)

    # --- changes ---

    def change(self, line: str, by: int = 0) -> bool:
        """Makes another puzzle of the one that is shown; one of the draft, where that line goes along it. A refusal changes nothing."""
        self.message = ''
        reply = self.ask(line)
        if reply is None or (reply.refused and not reply.is_lost) or not self._look():
            return False
        at = self.draft.at + by
        if self.draft.ids[at] == self.board.session.id:
            self.draft = self.draft._replace(at=at)
        self._keep()
        return True

    def put(self, item: Item, number: int) -> bool:
        """An item of the puzzle says this number; 1 is the sign by which the first square is the greater."""
        return self.change(item_line(item, number))

    def along(self, by: int) -> bool:
        """Back along the draft, or forth."""
        if self.draft.at + by in range(len(self.draft.ids)):
            return self.change(f'new {self.draft.ids[self.draft.at + by]}', by)
        self.message = shared_texts.REFUSED_MOVES['NothingToUndo' if by < 0 else 'NothingToRedo']
        return False

    def take_puzzle(self, id: str) -> bool:
        """Goes on with the puzzle of an ID, without its letter."""
        return self.change(f'new {id[0]}:{id.partition(":")[2]}')

    def open_save(self, game: str, content: bytes, kept_beside: bytes = b'') -> bool:
        """A save is of a game."""
        self.message = OF_GAME if content.startswith(saves.BEGINS) else OF_NOTHING
        return False

    def begin(self, game: str, id: str) -> bool:
        """Goes on with the puzzle of an ID, as one change of its game's draft."""
        return self.turn_to(game, self.board.size) and (self.take_puzzle(id) if ':' in id else self.change(f'new {id}'))

    def take_drawn(self) -> bool:
        """Goes on with the puzzle that was read from a drawing, if one was, as one change of its game's draft, and tells what was read."""
        drawn, self.drawn = self.drawn, None
        if drawn is None or not self.turn_to(drawn.puzzle.game, drawn.puzzle.size):
            return False
        try:
            with Trial(self.path, self.kind, self.waiting()) as trial:
                session = trial.ask(self.board.session.id, drawn.puzzle.lines).session
        except (Stopped, Gone) as fault:
            self.message = said_of(fault)
            return False
        is_taken = session is not None and self.change(f'new {session.id}')
        self.message = f'{drawn.told} {self.message}'.strip()
        return is_taken

    def thin(self, wish: Optional[Wish] = None) -> bool:
        """Takes out what can go; by the puzzle's own grade, where nothing else is wished."""
        if not self.has_one('thin'):
            return False
        wish, board, done = wish or Wish(self.verdict.letter), self.board, None
        end = time.monotonic() + FIRST_WAIT
        try:
            with Trial(self.path, self.kind, self.waiting(is_long=True)) as trial:
                for done in thinned(board, wish, trial.ask, random.shuffle):
                    if time.monotonic() > end and self.front.waiting(True):
                        raise Stopped
        except (Stopped, Gone) as fault:
            self.message = said_of(fault)
        if done is None or self.message:
            return False
        told = '' if done.is_as_wished else shared_texts.OTHER_GRADE
        if done.id == board.session.id:
            self.message = told or shared_texts.NO_THINNING
            return False
        is_changed = self.change(f'new {done.id}')
        self.message = f'{self.message} {told}'.strip()
        return is_changed

    def fill(self) -> bool:
        """Puts in all clues, or all signs, of the only solution."""
        id = self.board.session.id
        if not self.has_one('fill'):
            return False
        verdict = self.verdict
        if not self.change('fill'):
            return False
        if self.board.session.id == id:
            self.verdict, self.message = verdict, shared_texts.NOTHING_TO_FILL
        return self.board.session.id != id

    def has_one(self, what: str) -> bool:
        """Whether there is exactly one solution; otherwise a sentence says why what needs it can't be done."""
        self.message = ''
        kind = self.ruled().kind
        if kind != 'one':
            self.message = self.message or f'{shared_texts.NEEDS_ONE[what]}: {shared_texts.NOT_ONE[kind or "unknown"]}'
        return kind == 'one'

    # --- the verdict ---

    def judging(self) -> Iterator[Verdict]:
        """Seeks what isn't known of the verdict, and gives it each time that more of it is known, or that somebody may have enough of that."""
        if self.verdict.is_whole:
            return
        id = self.board.session.id
        with Trial(self.path, self.kind, self.waiting(is_long=True)) as trial:

            def tried(lines: Sequence[str]) -> Optional[Reply]:
                try:
                    return trial.ask(id, lines)
                except (Stopped, Gone):
                    return None

            for verdict in judged(self.board, self.ask, tried):
                self.verdict = verdict
                yield verdict

    def told(self, which: str) -> str:
        """The sentence on the verdict: how the marked items are told from others. An empty board says how it is filled."""
        if self.verdict.kind != 'blank':
            return self.verdict.told(self.ways.why, which, self.board.size)
        typing = texts.TYPING[self.kind]['keys' if self.ways is texts.BY_KEYS else 'lines']
        return f'{shared_texts.TYPE_IN}. {typing} {shared_texts.SAID_AFTER_EACH}'

    def judge(self) -> Verdict:
        """The verdict, as far as the player waits for it."""
        for _ in self.judging():
            pass
        return self.verdict

    def ruled(self) -> Verdict:
        """The same, perhaps without the items that are marked."""
        if not self.verdict.kind:
            next(self.judging(), None)
        return self.verdict

    def playable(self) -> Optional[Choice]:
        """The puzzle as a game, where it has exactly one solution."""
        return Choice(self.kind, self.board.size, id=self.board.session.id) if self.has_one('play') else None

    def _new_hint_walk(self) -> Optional[HintWalk]:
        """The steps that show why there is no solution."""
        hint = self.ruled().hint
        if hint is None:
            self.message = self.message or (shared_texts.TRIED if self.verdict.kind == 'none' else shared_texts.WHY_NOT)
        return HintWalk(hint, self.board, 0) if hint else None

    def end_hint(self) -> None:
        """There is no move to take back."""
        self._hint_walk = None

    # --- how it is kept ---

    def _keep(self) -> None:
        self.draft = self.draft.with_puzzle(self.board.session.id)
        self.verdict = Verdict()
        super()._keep()

    def _to_keep(self) -> Tuple[str, bytes]:
        return f'{self.kind}-draft', self.draft.content

    def _told_choice(self, program: Program, number: Optional[int]) -> Optional[Choice]:
        return None

    def _told_grade(self) -> str:
        return ''
