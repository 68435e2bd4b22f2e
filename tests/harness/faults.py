"""The library tests/faults/faults.c: a chosen call of a program fails, or the program is killed there."""

import os
import subprocess
from pathlib import Path
from typing import Dict, NamedTuple

from tests.harness.room import Room, Skip, can_preload
from tests.harness.skips import need

SOURCE = Path(__file__).resolve().parent.parent / 'faults' / 'faults.c'


class Met(NamedTuple):
    """The calls that a run met: how many of the calls that were asked for, and how many calls that matter after the first failure."""

    calls: int
    later: int


def preloaded(room: Room, source: Path) -> str:
    """A library for LD_PRELOAD, built in a room. Raises `Skip` where that can't be. For another processor CC_OF_TESTS names a compiler."""
    compiler = os.environ.get('CC_OF_TESTS', 'cc')
    need(compiler)
    if not can_preload(room.path):
        raise Skip('nothing below TMPDIR can be preloaded', 'a TMPDIR without blanks and colons in its path')
    library = os.path.join(room.path, f'{source.stem}.so')
    words = [compiler, '-O1', '-shared', '-fPIC', '-o', library, str(source)]
    built = subprocess.run(words, stdin=subprocess.DEVNULL, stderr=subprocess.PIPE, check=False)
    if built.returncode != 0:
        first = built.stderr.decode(errors='replace').partition('\n')[0]
        raise Skip(f"cc doesn't take {source.name}: {first}", 'a compiler of C with its headers, as of gcc and libc6-dev')
    return library


class FaultLibrary:
    """The library, built in a room. The source says which names and errors there are."""

    def __init__(self, room: Room) -> None:
        """Raises `Skip` where it can't be built."""
        self._library = preloaded(room, SOURCE)
        self._count = os.path.join(room.path, 'count')

    def env(
        self,
        call: str,
        at: int = 0,
        error: str = 'EIO',
        *,
        on: bool = False,
        piece: int = 0,
        also: str = '',
        swap: str = '',
    ) -> Dict[str, str]:
        """The environment of a run in which the call with this number fails, counted from 1, or none."""
        # The file is there, so that any user may write what was counted, and empty, where the program is killed.
        with open(self._count, 'wb') as file:
            os.fchmod(file.fileno(), 0o666)
        return {
            'LD_PRELOAD': self._library,
            'FAULT_COUNT': self._count,
            'FAULT_CALL': call,
            'FAULT_AT': str(at),
            'FAULT_ERROR': error,
            'FAULT_ON': '1' if on else '0',
            'FAULT_PIECE': str(piece),
            'FAULT_ALSO': also,
            'FAULT_SWAP': swap,
        }

    def met(self) -> Met:
        """The calls that the last run met; nothing where it was killed."""
        with open(self._count, encoding='ascii') as file:
            numbers = file.read().split()
        return Met(int(numbers[0]), int(numbers[1])) if numbers else Met(0, 0)
