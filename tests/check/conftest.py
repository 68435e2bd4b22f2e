"""The command that is tried."""

from typing import Any, Sequence

import pytest

from tests.harness import TOP, Ended, Room, run

PATH = str(TOP / 'check' / 'puzzles-check')


class Checker:
    """The command, over a program."""

    def __init__(self, program: str, room: Room) -> None:
        self.room = room
        self.program = program

    def run(self, words: Sequence[str] = (), input: bytes = b'', **how: Any) -> Ended:
        return run([PATH, *words], self.room, input=input, env={'PUZZLES_JSON': self.program, **how.pop('env', {})}, **how)

    def expect(self, input: str, status: int, lines: Sequence[str], told: Sequence[str] = (), words: Sequence[str] = ()) -> None:
        """It has this status, writes these lines, with one blank for each tab, and tells what it can't read. The forms that it shows are passed over."""
        ended = self.run(words, input.encode())
        assert ended.output.decode().replace('\t', ' ').splitlines() == list(lines)
        assert [line for line in ended.error.decode().splitlines() if not line.startswith('  ')] == [f'puzzles-check: {text}' for text in told]
        assert ended.status == status


@pytest.fixture
def checker(objects: str, room: Room) -> Checker:
    return Checker(objects, room)
