"""Two generators, ours and the usual program's, and what they took of a processor."""

from __future__ import annotations

import json
import os
import subprocess
import sys
import tempfile
from typing import Any, Dict, List, NamedTuple, Optional, Sequence, Tuple

from playing import fair
from timing.answering import TOP, processor_time

#: Debian has the usual programs in the last folder.
PATH = f'{os.environ.get("PATH", os.defpath)}:/usr/games'


class Kind(NamedTuple):
    """A class of games."""

    game: str
    size: int
    #: The letter of the grade.
    letter: str

    @property
    def params(self) -> str:
        """As the usual program names it."""
        return f'{self.size}d{self.letter}'


def kinds(words: Sequence[str]) -> List[Kind]:
    """All of which there are fair games, or of those those that are named, as `towers 9dh`."""
    every = [Kind(game, size, letter) for game in fair.OFFERED for size in fair.SIZES for letter in fair.letters(game, size)]
    return [kind for kind in every if not words or (kind.game in words and (kind.params in words or not set(words) - set(fair.OFFERED)))]


class Made(NamedTuple):
    #: Nothing where no game was made.
    id: Optional[str]
    nanoseconds: int


def program() -> str:
    """The file of our program."""
    return os.environ.get('PUZZLES_JSON') or str(TOP / 'programs' / 'linux-amd64' / 'puzzles-json')


class Maker:
    """Our program, from the beginning of a `with` to its end."""

    def __init__(self, game: str) -> None:
        self._process = subprocess.Popen(['puzzles-json', game], executable=program(), stdin=subprocess.PIPE, stdout=subprocess.PIPE)

    def __enter__(self) -> Maker:
        return self

    def __exit__(self, *_: object) -> None:
        self._process.kill()
        self._process.communicate()

    def answer(self, line: str) -> bytes:
        """The object that answers a line, as it is written."""
        stdin, stdout = self._process.stdin, self._process.stdout
        assert stdin and stdout
        stdin.write(f'{line}\n'.encode())
        stdin.flush()
        return stdout.readline() or sys.exit('the program has ended')

    def ask(self, line: str) -> Dict[str, Any]:
        """The object that answers a line."""
        answer: Dict[str, Any] = json.loads(self.answer(line))
        return answer

    def processor_time(self) -> int:
        """The nanoseconds of a processor that it has taken."""
        return processor_time(self._process.pid)

    def make(self, kind: Kind, seed: int) -> Made:
        """The fair game of a seed."""
        before = self.processor_time()
        answer = self.ask(fair.line(kind.size, kind.letter, seed))
        nanoseconds = self.processor_time() - before
        if answer['refused'] not in (None, 'NoneFound'):
            sys.exit(f'the program refuses a fair game: {answer["refused"]}')
        return Made(None if answer['refused'] else answer['session']['id'], nanoseconds)


def used_by(words: Sequence[str], **more: Any) -> Tuple[bytes, int]:
    """The answer of a command, and the nanoseconds of a processor that all of it took."""
    with subprocess.Popen(words, stdout=subprocess.PIPE, **more) as process:
        assert process.stdout
        answer = process.stdout.read()
        _, status, used = os.wait4(process.pid, 0)
        process.returncode = os.waitstatus_to_exitcode(status) if hasattr(os, 'waitstatus_to_exitcode') else status
    return answer, round((used.ru_utime + used.ru_stime) * 1e9)


def at_once(kind: Kind, count: int) -> int:
    """The nanoseconds that our program takes for the fair games of the seeds from 1 on, all in one file, from its start to its end."""
    with tempfile.TemporaryFile() as lines:
        lines.write(''.join(f'{fair.line(kind.size, kind.letter, seed)}\n' for seed in range(1, count + 1)).encode())
        lines.seek(0)
        return used_by(['puzzles-json', kind.game], executable=program(), stdin=lines)[1]


class Usual(NamedTuple):
    """The puzzles that the usual program made at once, and the nanoseconds that all of it took."""

    ids: List[str]
    nanoseconds: int


def usual(kind: Kind, count: int) -> Usual:
    """Puzzles of the usual program's own generator. Without a display it makes them all the same."""
    env = {name: value for name, value in os.environ.items() if name not in ('DISPLAY', 'WAYLAND_DISPLAY')}
    answer, nanoseconds = used_by([f'sgt-{kind.game}', '--generate', str(count), kind.params], env={**env, 'PATH': PATH})
    return Usual(answer.decode().split(), nanoseconds)
