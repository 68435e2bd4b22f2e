"""A copy of the scripts with a command `rt` of its own, in which another user works, with next to nothing in the environment."""

import os
import shutil
import subprocess
from typing import Dict, Iterator, Mapping, Optional, Sequence

import pytest

from tests.conftest import Programs
from tests.harness import Ended, Folder, Room, run
from tests.harness.builds import TOP
from tests.harness.mounts import disk_in_memory
from tests.harness.terminal import Terminal
from tests.harness.users import plain_user

#: The parts of the repository that are copied: folders and files.
PARTS = ['.ci', 'board', 'certificate', 'check', 'page', 'playing', 'sheet', 'desktop', 'tests', 'tools', 'man', 'docs', 'bench', 'programs/web']
PARTS += ['Makefile', 'README.md', 'CHANGELOG.md', 'LICENSE', 'VERSION', 'COMMIT', '.gitattributes', '.gitignore']

#: The stand-ins for commands that the scripts call.
STAND_INS = TOP / 'tests' / 'scripts' / 'stand_ins'


class Place:
    """The copy, with crates that are empty, and a folder for TMPDIR into which nobody else may go. It lies in a folder `a b` of a room, so that there is a
    blank in each path. With another place it begins as that one is."""

    def __init__(self, room: Room, program: str, objects: str, like: Optional['Place'] = None) -> None:
        self.user = plain_user()
        self.program = program
        self.objects = objects
        above = os.path.join(room.path, 'a b')
        self.path = os.path.join(above, 'checkout')
        self.rt = os.path.join(self.path, '../kit/bin/rt')
        self._temporary = os.path.join(above, 'for a while')
        if like:
            # With the same owners and dates.
            subprocess.run(['cp', '-a', os.path.dirname(like.path), above], check=True)
        else:
            self._fill()
            self.give()

    def _fill(self) -> None:
        os.makedirs(self.path)
        for name in PARTS:
            source, target = TOP / name, os.path.join(self.path, name)
            if source.is_dir():
                shutil.copytree(source, target, ignore=shutil.ignore_patterns('__pycache__'))
            else:
                shutil.copy2(source, target)
        self.kit('../kit', 'rt', b'a kit that proves nothing\n')
        self.put('crates.txt', (TOP / 'crates.txt').read_bytes(), 0o644)
        for crate in (TOP / 'crates').iterdir():
            self.put(f'crates/{crate.name}/src/lib.rt', b'', 0o644)
        os.mkdir(self._temporary, 0o700)

    def put(self, path: str, content: bytes, mode: int = 0o755) -> str:
        """Makes a file of the copy, or gives it this content, and gives its whole path."""
        whole = os.path.join(self.path, path)
        os.makedirs(os.path.dirname(whole), exist_ok=True)
        with open(whole, 'wb') as file:
            os.fchmod(file.fileno(), mode)
            file.write(content)
        return whole

    def stand_in(self, name: str, path: str) -> str:
        """Puts what stands for a command there, and gives its whole path."""
        return self.put(path, (STAND_INS / name).read_bytes())

    def kit(self, folder: str, rt: str, line: bytes) -> str:
        """Puts what stands for a kit into a folder, with this command and this line. Gives the whole path of the command."""
        self.put(f'{folder}/KIT-ID', line, 0o644)
        for name, path in zip(['rtlib.py', *['maker'] * 3], ['bin/rtlib.py', 'bin/rattle', 'bin/rattle-link', 'toolchain/bin/clang']):
            self.stand_in(name, f'{folder}/{path}')
        return self.stand_in(rt, f'{folder}/bin/rt')

    def give(self) -> None:
        """All of it, and the folder above, belongs to the user from here on."""
        if self.user:
            for _, _, names, fd in os.fwalk(os.path.dirname(self.path)):
                os.fchown(fd, *self.user.owner)
                for name in names:
                    os.chown(name, *self.user.owner, dir_fd=fd)

    def env(self, more: Mapping[str, str]) -> Dict[str, str]:
        """An environment with as little as may be: `rt` is the one of this place, and the programs that it leaves are the one that is tested."""
        home = os.path.dirname(self.path)
        path = os.environ.get('PATH', os.defpath)
        return {'PATH': path, 'HOME': home, 'RT': self.rt, 'RT_PROGRAM': self.program, 'TMPDIR': self._temporary, **more}

    def run(self, words: Sequence[str], *, cwd: str = '', input: bytes = b'', env: Optional[Mapping[str, str]] = None) -> Ended:
        """Runs a command, there or in a folder named from there, with what else the environment has."""
        with Folder(os.path.join(self.path, cwd)) as folder:
            return run(words, folder, input=input, user=self.user, env=self.env(env or {}))

    def terminal(self, *words: str, **env: str) -> Terminal:
        """A command in a terminal. The named words are what else the environment has."""
        return Terminal(words, self.env({'TERM': 'dumb', **env}), cwd=self.path, user=self.user)

    def file(self, path: str) -> bytes:
        """The text of a file of the copy; nothing if it isn't there."""
        try:
            with open(os.path.join(self.path, path), 'rb') as file:
                return file.read()
        except FileNotFoundError:
            return b''


@pytest.fixture(scope='session')
def memory() -> Iterator[str]:
    """A folder for places, in memory where that can be: so many files are copied sooner there."""
    with Room() as room, disk_in_memory(room.path):
        yield room.path


@pytest.fixture(scope='session')
def first_place(memory: str, programs: Programs) -> Iterator[Place]:
    """Nothing is done in it: others are copied from it."""
    with Room(memory) as room:
        yield Place(room, *programs)


@pytest.fixture
def place(memory: str, first_place: Place) -> Iterator[Place]:
    with Room(memory) as room:
        yield Place(room, first_place.program, first_place.objects, first_place)
