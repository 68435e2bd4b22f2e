"""Where games are kept: the present ones, those that were put away, and which stored puzzles were played.

All lies in the folder $XDG_STATE_HOME/puzzles, or ~/.local/state/puzzles. A file there is whole or as it was. A file that can't be read
is never replaced: it is told, and the present game gets a file beside it. A game that isn't solved is never deleted but by the player.
"""

from __future__ import annotations

import contextlib
import os
import re
import time
from enum import Enum
from typing import Container, Dict, Iterable, List, Mapping, NamedTuple, Optional, Set, Tuple

from playing import beside, files, saves

#: How many solved games that were put away are kept; and how many saves in a folder are listed, of so many files that are looked at.
SOLVED_GAMES, LISTED, LOOKED_AT = 100, 20, 500

#: The names of the files of games that were put away: when, the number of several at a time, the game, and whether it was solved.
OLD_NAME = re.compile(r'(\d{8}-\d{6})-(\d{3,})-([a-z]+)(-solved)?\.sav')

#: How many windows may have a game of one kind at a time.
WINDOWS = 20

NO_FOLDER = 'neither XDG_STATE_HOME nor HOME names a folder'
OTHER_WINDOW = 'Another window has the last {word}; this one is kept in {name}.'


class NotKept(Exception):
    """A game or a draft can't be kept. The text says why."""


class Home(Enum):
    """Where the save of a game lies that can be continued."""

    PRESENT = 'where games are kept that no window has'
    OLD = 'among those that were put away'
    FOLDER = 'in a folder of the player\'s'


class SavedGame(NamedTuple):
    """A game that can be continued."""

    path: str
    home: Home
    #: Seconds, as the system counts them.
    when: float

    @property
    def game(self) -> str:
        """Its game, by the name that the board gave the file; `save` of a file of the player's."""
        return 'save' if self.home is Home.FOLDER else game_of(self.path)

    @property
    def is_solved(self) -> bool:
        """Whether it was put away as a solved one."""
        name = OLD_NAME.fullmatch(os.path.basename(self.path))
        return bool(name and name[4])


def folder_of(env: Mapping[str, str]) -> Optional[str]:
    """The folder for games, by the environment; nothing where that names none."""
    state, home = env.get('XDG_STATE_HOME', ''), env.get('HOME', '')
    if os.path.isabs(state):
        return os.path.join(state, 'puzzles')
    return os.path.join(home, '.local', 'state', 'puzzles') if os.path.isabs(home) else None


def game_of(path: str) -> str:
    """The game of a file in the folder, by its name."""
    name = os.path.basename(path)
    old = OLD_NAME.fullmatch(name)
    return old[3] if old else name[:-4].rstrip('-0123456789')


class LockedFile:
    """The file of a present game. While this is there no other window takes it."""

    def __init__(self, path: str, lock: int) -> None:
        self.path = path
        self._lock = lock

    @property
    def game(self) -> str:
        return game_of(self.path)

    def release(self) -> None:
        with contextlib.suppress(OSError):
            os.close(self._lock)


class Slot(NamedTuple):
    """Where a present game can be kept."""

    #: Nothing where no file can be had.
    file: Optional[LockedFile]
    #: The game that is kept there, if one is.
    kept: Optional[bytes]
    #: The facts that are kept beside it.
    beside: bytes = b''
    #: A sentence for each file that was passed over, since it can't be read; and why no file can be had, where none can.
    told: str = ''
    why: str = ''
    #: Why nothing can be locked there.
    fault: str = ''

    def release(self) -> None:
        if self.file:
            self.file.release()


class State:
    """The folder. Where there is none, or nothing can be written to it, keeping raises `NotKept`, and nothing else does."""

    def __init__(self, env: Mapping[str, str], ending: str = '.sav', word: str = 'game') -> None:
        """The files kept are games, or are called by another word; their names end so."""
        self._folder = folder_of(env)
        self._ending = ending
        self._word = word
        #: Where the present game is kept.
        self.slot = Slot(None, None)
        self._chosen: Dict[str, str] = {}
        #: The facts that were kept last beside a game, and where.
        self._beside = '', b''

    # --- the present game ---

    def claim(self, game: str, but: Container[str] = ()) -> Slot:
        """The file of a present game that no other window has: the last one that was played and can be read, else a new one. Some may be left out."""
        if self._folder is None:
            return Slot(None, None, why=NO_FOLDER)
        reason = self._make_folder()
        passed: List[str] = []
        is_taken = False
        for path in [path for path in self._in_order(game) if path not in but]:
            slot, is_there = _slot(path), os.path.lexists(path)
            if slot.file:
                name = os.path.basename(path)
                other = OTHER_WINDOW.format(word=self._word, name=name) if is_taken else ''
                return slot._replace(told=f'{self._told(passed, name)} {other}'.strip())
            reason = reason or slot.fault
            is_taken = is_taken or (is_there and not slot.why)
            if slot.why and is_there:
                passed.append(f'{path} {slot.why}')
        why = f'nothing can be written to {self._folder} ({reason})' if reason else f'no file is left for one more {self._word} of this kind'
        return Slot(None, None, told=self._told(passed), why=why)

    def take(self, slot: Slot) -> None:
        """Keeps the present game there from here on."""
        if slot.file is not self.slot.file:
            self.release()
            self._beside = '', b''
        self.slot = Slot(slot.file, None, why=slot.why)

    def last(self, games: Iterable[str]) -> Optional[str]:
        """Of these games the one that was played last."""
        found = {game: max(map(_changed, self._paths(game)), default=0.0) for game in games}
        return max(found, key=lambda game: found[game]) if any(found.values()) else None

    def keep(self, game: str, content: bytes) -> str:
        """Keeps the present game; beside its file where something else has taken its place, and a sentence says so."""
        if self.slot.file is None:
            # The hindrance may be over. It takes no other game's place.
            self.take(self.claim(game, self._there(game)))
        file, told = self.slot.file, ''
        if file is None:
            raise NotKept(self.slot.why)
        other = files.other_than_file(file.path)
        if other:
            free = next((slot for slot in map(_slot, self._free(file.game)) if slot.file), None)
            if free is None or free.file is None:
                raise NotKept(f'{file.path} {other}')
            told = self._told([f'{file.path} {other}'], os.path.basename(free.file.path))
            self.take(free)
            file = free.file
        _keep(file.path, content)
        return told

    def keep_beside(self, content: bytes) -> None:
        """Keeps that beside the present game, where it isn't there yet; it is no harm where that can't be done."""
        if self.slot.file is None:
            return
        path = beside.file_of(self.slot.file.path)
        if (path, content) == self._beside:
            return
        with contextlib.suppress(OSError):
            if content:
                files.replace(path, content)
            elif os.path.lexists(path):
                os.unlink(path)
            self._beside = path, content

    def drop(self) -> None:
        """The present game is no longer kept: it was put away."""
        if self.slot.file:
            _unlink(self.slot.file.path)

    def release(self) -> None:
        """Leaves the present game where it is, for any window to go on with."""
        self.slot.release()
        self.slot = Slot(None, None)

    # --- games that were put away ---

    def put_away(self, game: str, content: bytes, kept_beside: bytes = b'', is_solved: bool = False) -> None:
        """Keeps a game, with what is kept beside it. Where there are too many solved ones, the oldest of these go."""
        if self._folder is None:
            raise NotKept(NO_FOLDER)
        name = f'{game}{"-solved" if is_solved else ""}'
        stamp, number = self._next_stamp()
        try:
            files.make_folder(self._old_folder())
            while not files.make(os.path.join(self._old_folder(), f'{stamp}-{number:03}-{name}.sav'), content):
                number += 1
            if kept_beside:
                files.make(os.path.join(self._old_folder(), f'{stamp}-{number:03}-{name}.hints'), kept_beside)
        except files.NoFile as other:
            raise NotKept(f'{self._old_folder()} {other}') from other
        except OSError as error:
            raise NotKept(files.why(error)) from error
        for old in [old for old in self.old_games() if old.is_solved][SOLVED_GAMES:]:
            self.forget(old)

    def _next_stamp(self) -> Tuple[str, int]:
        """When a game is put away now, and its number: the names are in the order in which games were put away, whatever the clock does."""
        stamp = time.strftime('%Y%m%d-%H%M%S')
        for old in self.old_games()[:1]:
            last = OLD_NAME.fullmatch(os.path.basename(old.path))
            if last and last[1] >= stamp:
                return last[1], int(last[2]) + 1
        return stamp, 0

    def old_games(self) -> List[SavedGame]:
        """The games that were put away, the last one first."""
        names = sorted(filter(OLD_NAME.fullmatch, files.names_in(self._old_folder())[0]), reverse=True) if self._folder else []
        return [_saved(os.path.join(self._old_folder(), name), Home.OLD) for name in names]

    def left_games(self, games: Iterable[str]) -> List[SavedGame]:
        """The present games that no window has, the last one first."""
        found: List[SavedGame] = []
        for path in (path for game in games for path in self._there(game)):
            slot = _slot(path)
            if slot.kept is not None:
                found.append(_saved(path, Home.PRESENT))
            slot.release()
        return sorted(found, key=lambda saved: saved.when, reverse=True)

    def slot_of(self, saved: SavedGame) -> Slot:
        """Where a present game is kept that no window has; without a file where one has it now."""
        return _slot(saved.path)

    def old_trouble(self) -> str:
        """A sentence where the games that were put away can't be listed."""
        why = files.names_in(self._old_folder())[1] if self._folder else ''
        return f'{self._old_folder()} {why}.' if why else ''

    def forget(self, saved: SavedGame) -> None:
        """Deletes a kept game: it is a present game again, or one too many, or the player doesn't want it any more."""
        _unlink(saved.path)

    # --- what was chosen last ---

    def chosen(self, name: str) -> str:
        """The player's choice under this name; nothing if there is none, or it can't be read."""
        return self._chosen.get(name, self._kept_choices().get(name, ''))

    def choose(self, name: str, value: str) -> None:
        """Chooses that; it is kept where it can be."""
        self._chosen[name] = value
        if self._folder is None or files.read(self._choices_path()).is_closed:
            return
        choices = {**self._kept_choices(), **self._chosen}
        self._make_folder()
        with contextlib.suppress(NotKept):
            _keep(self._choices_path(), ''.join(f'{name} {value}\n' for name, value in sorted(choices.items())).encode('latin-1'))

    def _kept_choices(self) -> Dict[str, str]:
        content = files.read(self._choices_path()).content if self._folder else b''
        pairs = (line.partition(' ') for line in content.decode('latin-1').splitlines())
        return {name: value for name, _, value in pairs}

    def _choices_path(self) -> str:
        return os.path.join(self._folder or '', 'choices')

    # --- stored puzzles ---

    def played(self, game: str) -> Set[str]:
        """The IDs of the stored puzzles that were begun."""
        return {word.decode('latin-1') for word in self._marks(game).content.split()}

    def set_played(self, game: str, ids: Set[str]) -> None:
        trouble = self.played_trouble(game)
        if trouble:
            raise NotKept(trouble)
        if self._folder is not None:
            self._make_folder()
            _keep(self._marks_path(game), ''.join(f'{id}\n' for id in sorted(ids)).encode('latin-1'))

    def played_trouble(self, game: str) -> str:
        """A sentence where it can't be told which puzzles were begun."""
        found = self._marks(game)
        return f'{self._marks_path(game)} {found.why}: puzzles that you have played may come again.' if found.is_closed else ''

    def _marks(self, game: str) -> files.Found:
        return files.read(self._marks_path(game)) if self._folder else files.Found(files.Kind.ABSENT)

    def _marks_path(self, game: str) -> str:
        return os.path.join(self._folder or '', f'{game}.played')

    def _old_folder(self) -> str:
        return os.path.join(self._folder or '', 'old')

    def _make_folder(self) -> str:
        """Makes the folder where there is none. Why that can't be done, or nothing."""
        try:
            files.make_folder(self._folder or '')
        except OSError as error:
            return files.why(error)
        return ''

    def _in_order(self, game: str) -> List[str]:
        """The files of present games: those that are there, the one that was changed last first, and then the others."""
        return self._there(game) + self._free(game)

    def _there(self, game: str) -> List[str]:
        return sorted(filter(os.path.lexists, self._paths(game)), key=_changed, reverse=True)

    def _free(self, game: str) -> List[str]:
        return [path for path in self._paths(game) if not os.path.lexists(path)]

    def _paths(self, game: str) -> List[str]:
        if self._folder is None:
            return []
        return [os.path.join(self._folder, f'{game}{f"-{at + 1}" if at else ""}{self._ending}') for at in range(WINDOWS)]

    def _told(self, passed: List[str], name: str = '') -> str:
        """The sentence on files that were passed over, and the name of the one that was had instead."""
        then = f', and this {self._word} is kept in {name}' if name else ''
        return f"{'; '.join(passed)}: a file that can't be read stays as it is{then}." if passed else ''


def _slot(path: str) -> Slot:
    """That file, locked. Or why it can't be had, or nothing where another window has it."""
    try:
        lock = files.lock(path[:-4] + '.lock')
    except OSError as error:
        return Slot(None, None, why=f"can't be locked ({files.why(error)})", fault=files.why(error))
    if lock is None:
        return Slot(None, None)
    found = files.read(path)
    if found.is_closed:
        os.close(lock)
        return Slot(None, None, why=found.why)
    return Slot(LockedFile(path, lock), found.content if found.kind is files.Kind.READ else None, files.read(beside.file_of(path)).content)


def _unlink(path: str) -> None:
    """Takes a kept game away, and what is kept beside it."""
    for name in (path, beside.file_of(path)):
        with contextlib.suppress(OSError):
            os.unlink(name)


def saves_in(folder: str) -> List[SavedGame]:
    """The saves in a folder of the player's, the last one first."""
    names = [name for name in sorted(files.names_in(folder or '.')[0]) if not name.startswith('.')][:LOOKED_AT]
    paths = [os.path.join(folder, name) for name in names]
    found = [_saved(path, Home.FOLDER) for path in paths if files.begins(path, saves.BEGINS)]
    return sorted(found, key=lambda saved: saved.when, reverse=True)[:LISTED]


def _saved(path: str, home: Home) -> SavedGame:
    return SavedGame(path, home, _changed(path))


def _keep(path: str, content: bytes) -> None:
    try:
        files.replace(path, content)
    except OSError as error:
        raise NotKept(files.why(error)) from error


def _changed(path: str) -> float:
    """When a file was changed last; 0 where it isn't there."""
    try:
        return os.stat(path).st_mtime
    except OSError:
        return 0.0
