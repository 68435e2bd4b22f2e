"""One game at a time: how it begins, and what becomes of the one before."""

from __future__ import annotations

import os
from functools import partial
from typing import Callable, List, NamedTuple, Optional, Sequence, Tuple

from playing import beside, choices, files, games, printed, saves, shared_texts, texts
from playing.board import GAMES
from playing.choices import Choice
from playing.drawings import Read
from playing.present import PresentGame
from playing.printed import Printed
from playing.program import Gone, Program, Refused, Stopped, begun_by, started_with
from playing.state import Home, NotKept, SavedGame, Slot, saves_in


class Start(NamedTuple):
    """The first game: the one that is kept; or that of an ID, a file or a choice."""

    game: str
    what: str = ''
    choice: Optional[Choice] = None


class Game(PresentGame):
    """The present game, and those that follow it."""

    #: The game whose draft has its place on the setter's desk, where another front goes on; nothing where none has.
    at_desk = ''
    #: A puzzle that was read from a drawing, and is to be shown on the setter's desk before it counts.
    drawn: Optional[Printed] = None

    def start(self, game: str, what: str) -> bool:
        """Goes on with a game, or begins that of an ID or a file. Behind a drawing is the game that is kept."""
        if not what:
            self.resume(game)
            return True
        if is_there(what):
            has_begun = self.open(game, what)
            if self.drawn:
                self.resume(self.drawn.puzzle.game)
            return has_begun or self.drawn is not None
        if may_be_id(what):
            return self.begin(game, what)
        self.message = f"There is no file '{what}', and no puzzle with that ID. {texts.of_id('NoDescription', game)}"
        return False

    def resume(self, game: str) -> None:
        """Goes on with the game that is kept; where there is none that can be read, with a new one."""
        slot, told = self.state.claim(game), ''
        try:
            if slot.kept is not None:
                try:
                    self._take(started_with(self.path, game, slot.kept, self.waiting()), slot, slot.beside)
                    return
                except Refused as refused:
                    slot, told = self._past_damaged(game, slot, texts.of_save(str(refused), game))
            choice = choices.first(self.state, game)
            program = self._new(choice)
        except Stopped as stopped:
            raise Gone('it gave no answer') from stopped
        self._take(program, slot)
        new = texts.GREETING if self.ways is texts.BY_KEYS else ''
        trouble = '' if choice.is_fair else self.state.played_trouble(game)
        self.message = ' '.join(filter(None, [self.message, told, trouble, self.told_number, new]))

    def begin(self, game: str, id: str) -> bool:
        """Begins the puzzle of an ID."""
        return self._begin(game, partial(Program, self.path, game, ['--id', id]), texts.of_id)

    def begin_new(self, choice: Choice) -> bool:
        """Begins a new game, and remembers its size and grade."""
        trouble = ''
        if choice.is_fair:
            has_begun = self.begin_fair(choice.game, choice.lines)
        elif choice.id:
            has_begun = self.begin(choice.game, choice.id)
        else:
            has_begun = self.begin(choice.game, games.take(self.state, choice.game, choice.size, choice.letter) or '')
            trouble = self.state.played_trouble(choice.game)
        if has_begun:
            choices.remember(self.state, choice)
            self.message = f'{self.message} {trouble}'.strip()
        return has_begun

    def begin_fair(self, game: str, lines: Sequence[str]) -> bool:
        """Begins the fair game of a line of the program, or of the next one where its number has none."""
        return self._begin(game, partial(begun_by, self.path, game, lines), texts.of_fair)

    @property
    def told_number(self) -> str:
        """The present game's size, grade and number, where that is known."""
        return self.chosen.told if self.chosen else ''

    def open(self, game: str, file: str, kept_beside: bytes = b'') -> bool:
        """Goes on with a saved game; where it is the other game's, with that. The bytes beside it are given. A drawing is for the desk."""
        found = files.read(file)
        if found.kind is not files.Kind.READ:
            absent = f"There is no file '{file}'."
            self.message = {files.Kind.TOO_LARGE: texts.of_save('TooLarge', game), files.Kind.ABSENT: absent}.get(found.kind, f'{file} {found.why}.')
            return False
        is_save = found.content.startswith(saves.BEGINS)
        puzzles = [] if is_save else printed.found_in(found.content)
        if puzzles:
            return self._open_printed(game, file, puzzles)
        has_begun = self.open_save(game, found.content, kept_beside)
        self.message += '' if has_begun or is_save else f' {printed.nor(found.content)}'
        return has_begun

    def _open_printed(self, game: str, file: str, found: List[Read]) -> bool:
        """Begins the puzzle of an ID in a file, or notes a drawing; of several the one that the player chooses."""
        puzzles = printed.puzzles_of(found)
        at = 0 if len(puzzles) < 2 else self.front.choose(printed.SEVERAL.format(file=file, count=len(puzzles)), list(map(printed.row, puzzles)))
        if not puzzles or at is None:
            self.message = printed.NONE_CHOSEN if puzzles else f'{printed.fault(file, found)} {printed.FORMS}'
            return False
        one = puzzles[at]
        if one.puzzle:
            self.drawn = printed.printed(one, one.puzzle, file, found)
            return False
        return self.begin(printed.game_of(one, game), one.id)

    def open_save(self, game: str, content: bytes, kept_beside: bytes = b'') -> bool:
        """Goes on with what a save has, wherever that is from."""
        for word in [game, *(word for word in GAMES if word != game)]:
            if self._begin(word, partial(started_with, self.path, word, content), texts.of_save, kept_beside):
                return True
            if self.message != texts.of_save('WrongGame', word):
                return False
        # It is of neither game.
        self.message = texts.of_foreign(content) or self.message
        return False

    def saved_games(self, folder: str) -> List[SavedGame]:
        """Games that can be continued: present games that no window has, those that were put away, and the saves in a folder."""
        return [*self.state.left_games(GAMES), *self.state.old_games(), *saves_in(folder)]

    def told_of(self, saved: Sequence[SavedGame]) -> List[str]:
        """A line on each of such games, no two of them alike."""
        return games.distinct([games.summary(self.path, one, self.waiting()) for one in saved])

    def delete(self, saved: SavedGame) -> bool:
        """Deletes one of these, after a question. A file of the player's stays."""
        if saved.home is Home.FOLDER:
            self.message = f'{saved.path} is a file of yours, and is not deleted here.'
            return False
        if not self.front.confirm(f'Delete {games.summary(self.path, saved, self.waiting())}?'):
            self.message = 'Nothing was deleted.'
            return False
        slot = self.state.slot_of(saved) if saved.home is Home.PRESENT else None
        # A game that another window has taken meanwhile stays.
        is_taken = slot is not None and slot.kept is None
        if not is_taken:
            self.state.forget(saved)
        if slot:
            slot.release()
        self.message = 'Another window has it now.' if is_taken else 'It is deleted.'
        return not is_taken

    def go_on_with(self, saved: SavedGame) -> bool:
        """Goes on with one of these."""
        if saved.home is Home.PRESENT:
            return self._turn_to(saved)
        if saved.home is Home.FOLDER:
            return self.open(self.kind, saved.path)
        done = self.open(saved.game, saved.path, files.read(beside.file_of(saved.path)).content)
        if done and not self.trouble:
            self.state.forget(saved)
        return done

    def _turn_to(self, saved: SavedGame) -> bool:
        """The game before stays where it is kept, for the next time."""
        self.keep_again()
        if self.trouble and not self._put_away(self.kind, self._saved, self._beside(), self.board.is_solved):
            return False
        slot = self.state.slot_of(saved)
        if slot.kept is None:
            self.message = f'{saved.path} {slot.why or "is no longer there, or another window has it"}.'
            slot.release()
            return False
        program = self._started(partial(started_with, self.path, saved.game, slot.kept), saved.game, texts.of_save)
        if program is None:
            slot.release()
            return False
        self._take(program, slot, slot.beside)
        return True

    def _started(self, start: Callable[..., Program], game: str, sentence: Callable[[str, str], str]) -> Optional[Program]:
        """The program with a game; nothing, and the sentence, where that comes to nothing."""
        self.message = ''
        try:
            return start(waiting=self.waiting())
        except Refused as refused:
            self.message = sentence(str(refused), game)
        except Stopped:
            self.message = shared_texts.STOPPED
        except Gone as gone:
            self.message = f'The program says: {gone}.'
        return None

    def _begin(self, game: str, start: Callable[..., Program], sentence: Callable[[str, str], str], kept_beside: bytes = b'') -> bool:
        program = self._started(start, game, sentence)
        if program is None:
            return False
        slot = self._room_for(game)
        if slot is None:
            program.stop()
            return False
        self._take(program, slot, kept_beside)
        return True

    def _new(self, choice: Choice) -> Program:
        """A new game, where none is kept."""
        try:
            if choice.is_fair:
                return begun_by(self.path, choice.game, choice.lines, self.waiting())
            id = games.take(self.state, choice.game, choice.size, choice.letter) or ''
            return Program(self.path, choice.game, ['--id', id], waiting=self.waiting())
        except Refused as refused:
            raise Gone(f"it doesn't take a new game: {refused}") from refused

    def _past_damaged(self, game: str, slot: Slot, why: str) -> Tuple[Slot, str]:
        """Where a new game is kept though a kept one is no save, and a sentence on that one: it is put away, or stays where it is."""
        try:
            self.state.put_away(game, slot.kept or b'', slot.beside)
            return slot, f"The game that was kept is put away, as it can't be read: {why}"
        except NotKept as reason:
            slot.release()
            path = slot.file.path if slot.file else ''
            return self.state.claim(game, [path]), f"{path} can't be read, nor put away ({reason}), and stays as it is: {why}"

    def _room_for(self, game: str) -> Optional[Slot]:
        """Where a game is kept that begins now: the present one is put away, and what is kept there. Nothing where the present game is to stay."""
        before = self._board.session.game if self._board else ''
        if before and not self._put_away(before, self._saved, self._beside(), self.board.is_solved):
            return None
        if before == game:
            return self.state.slot
        slot = self.state.claim(game)
        if slot.kept is not None:
            board = games.board_of(self.path, game, slot.kept, self.waiting())
            if not self._put_away(game, slot.kept, slot.beside, board is not None and board.is_solved):
                slot.release()
                return None
        self.state.drop()
        return slot

    def _put_away(self, game: str, content: bytes, kept_beside: bytes, is_solved: bool) -> bool:
        """False where that can't be done, and the game is to stay. A game in which nothing was done needn't be kept."""
        if saves.is_untouched(content):
            return True
        try:
            if not content:
                # There was no memory for its save.
                raise NotKept(self.trouble)
            self.state.put_away(game, content, kept_beside, is_solved)
            return True
        except NotKept as reason:
            if self.front.confirm(f"The present game can't be put away ({reason}). Lose it?"):
                return True
            self.message = texts.STAYS
            return False


def may_be_id(what: str) -> bool:
    return bool(set(what) & set(':#!'))


def is_there(what: str) -> bool:
    """Whether that is the name of a file, or of something that isn't one and that no ID is meant by."""
    return os.path.isfile(what) or (os.path.lexists(what) and not may_be_id(what))
