"""One run of the program under a fault, and what it left."""

import contextlib
import os
import stat
from typing import Any, List, NamedTuple, Optional

from tests.harness import FaultLibrary, Met, Room, Skip, is_root, run
from tests.harness.game import told_left
from tests.harness.users import ANNA, GAMES

#: The file that is saved to, and where it lies when that name is a link.
SAVE, FAR = 'new.sav', 'far/real.sav'

#: The content that stands there mostly, and its mode.
OLD_SAVE = b'an old file\n'
OLD_MODE = 0o640


class Target(NamedTuple):
    """The save file before each run: some bytes or nothing, and whether its name is a link to them."""

    old: Optional[bytes] = None
    is_link: bool = False


class State(NamedTuple):
    """A file: which one, whose, with what mode and bytes. Nothing of it where there is none."""

    which: int = 0
    owner: int = 0
    group: int = 0
    mode: int = 0
    content: Optional[bytes] = None


class Round(NamedTuple):
    """How a run ended."""

    status: int
    output: bytes
    error: str
    met: Met
    before: State
    after: State
    #: The new files that it left, by name and with what they are.
    left_names: List[str]
    left: List[State]
    link_stands: bool

    @property
    def stands(self) -> bool:
        """The save file is as it was before the run."""
        return self.before == self.after

    def wrong_end(self, status: int, line: str) -> List[str]:
        """The mistakes if it had to end with this status and this line on standard error, and tell where it left the save."""
        wrong = []
        wanted = line and line + '\n' + told_left(self.left_names)
        if self.status != status:
            wrong.append(f'the status is {self.status}, not {status}')
        if self.error != wanted:
            wrong.append(f'standard error says {self.error!r}, not {wanted!r}')
        if not self.link_stands:
            wrong.append('the link has changed')
        return wrong

    def wrong_left(self) -> List[str]:
        return [f'{len(self.left)} new files are left'] if self.left else []


class Rounds:
    """Runs a program with the words, the input and the save file that are set by whoever wants the run."""

    def __init__(self, room: Room, program: str, library: FaultLibrary) -> None:
        """Raises `Skip` where the program can't be made to fail."""
        self.words = ['towers', '--save', 'new.sav']
        self.input = b''
        self.target = Target(OLD_SAVE)
        self._room = room
        self._program = program
        self._library = library
        room.make_folder('far').close()
        if not self.run('memory').met.calls:
            raise Skip('the program asks for memory past the library')

    def run(self, call: str = 'none', at: int = 0, error: str = 'EIO', **how: Any) -> Round:
        """One run. The words are those of `FaultLibrary.env`."""
        self._furnish()
        before = self._state(self._file())
        env = self._library.env(call, at, error, **how)
        ended = run([self._program, *self.words], self._room, input=self.input, env=env)
        left = self._left_names()
        return Round(
            ended.status,
            ended.output,
            ended.error.decode(errors='replace'),
            self._library.met(),
            before,
            self._state(self._file()),
            left,
            [self._state(name) for name in left],
            not self.target.is_link or self._room.link_text(SAVE) == FAR,
        )

    def put(self, name: str, content: bytes) -> None:
        """Makes a file beside the save file, which no run takes away."""
        self._room.put(name, content)

    def _file(self) -> str:
        return FAR if self.target.is_link else SAVE

    def _furnish(self) -> None:
        for name in (SAVE, FAR, *self._left_names()):
            with contextlib.suppress(FileNotFoundError):
                self._room.remove(name)
        if self.target.is_link:
            self._room.link(SAVE, FAR)
        if self.target.old is not None:
            # Where it can be it is another user's, so that there is an owner to be kept.
            self._room.put(self._file(), self.target.old, OLD_MODE, (ANNA.uid, GAMES) if is_root() else None)

    def _left_names(self) -> List[str]:
        far = [f'far/{name}' for name in os.listdir(f'{self._room.path}/far') if name.startswith('.puzzles.')]
        return far + [name for name in self._room.names() if name.startswith('.puzzles.')]

    def _state(self, name: str) -> State:
        found = self._room.status(name)
        if not found:
            return State()
        return State(found.st_ino, found.st_uid, found.st_gid, stat.S_IMODE(found.st_mode), self._room.read(name))
