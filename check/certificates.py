"""The certificates of all puzzles that are checked, and where they go."""

from __future__ import annotations

import errno
import os
import sys
from typing import Callable, Dict, IO, NamedTuple, Optional

from check.asking import Found
from check.certificate import Certifier, TooMuch
from check.words import STANDARD_OUTPUT, Asked
from playing.files import why


class Unwritten(Exception):
    """Certificates can't be written. The text says where they were to go, and why."""


class Certified(NamedTuple):
    """The facts of a puzzle's certificate: how many numbers it supposes; nothing if there is none within the limits."""

    suppositions: Optional[int]


class Certificates:
    """Makes them, by a run of the program for each game, and writes each as soon as it is there."""

    def __init__(self, path: str, asked: Asked, beat: Callable[[str], None]) -> None:
        """Raises `Unwritten`."""
        self._path, self._asked, self._beat = path, asked, beat
        self._makers: Dict[str, Certifier] = {}
        self._file: Optional[IO[str]] = sys.stdout
        if asked.certificate not in (None, STANDARD_OUTPUT):
            try:
                self._file = open(str(asked.certificate), 'w', encoding='ascii')
            except OSError as error:
                raise Unwritten(f'{asked.certificate}: {why(error)}') from error

    def __enter__(self) -> Certificates:
        return self

    def __exit__(self, *_: object) -> None:
        """Raises `Unwritten`, since a file still has what it couldn't write."""
        for maker in self._makers.values():
            maker.stop()
        if self._file and self._file is not sys.stdout:
            try:
                self._file.close()
            except OSError as error:
                raise Unwritten(f'{self._asked.certificate}: {why(error)}') from error

    def of(self, found: Found) -> Optional[Certified]:
        """That of a puzzle, which is written; nothing if none are asked for. Raises `Gone`, or `Unwritten`."""
        if self._asked.certificate is None:
            return None
        if found.game not in self._makers:
            self._makers[found.game] = Certifier(self._path, found.game, self._asked.limits, self._beat)
        maker = self._makers[found.game]
        try:
            text = maker.certificate(found.id, self._asked.has_needed)
        except TooMuch:
            return Certified(None)
        try:
            if self._file is None:
                raise OSError(errno.EBADF, os.strerror(errno.EBADF))
            self._file.write(f'{text}\n')
            self._file.flush()
        except OSError as error:
            raise Unwritten(f'{self._asked.certificate}: {why(error)}') from error
        return Certified(maker.suppositions)
