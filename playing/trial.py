"""A run of the program beside that of the desk, in which lines are tried: each time from the puzzle of an ID, which nothing changes."""

from __future__ import annotations

from typing import Optional, Sequence

from playing.board import Reply
from playing.program import Gone, Program, Waiting


class Trial:
    """It is started with the first lines, and lasts until it is stopped."""

    def __init__(self, path: str, game: str, waiting: Optional[Waiting] = None) -> None:
        self._path = path
        self._game = game
        self._waiting = waiting
        self._program: Optional[Program] = None

    def __enter__(self) -> Trial:
        return self

    def __exit__(self, *_: object) -> None:
        self.stop()

    def stop(self) -> None:
        if self._program:
            self._program.stop()

    def ask(self, id: str, lines: Sequence[str]) -> Reply:
        """The reply to the last of these lines. Raises `Stopped`, or `Gone`, also where one is refused."""
        self._program = self._program or Program(self._path, self._game, waiting=self._waiting)
        for line in (f'new {id}', *lines):
            reply = self._program.ask(line, self._waiting)
            if reply.refused:
                raise Gone(f'it refuses {line}: {reply.refused}')
        return reply
