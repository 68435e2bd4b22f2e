"""The command puzzles-sheet, run in a room."""

from typing import Any, List, Mapping, Optional, Sequence

from tests.harness import TOP, Ended, Folder, Room, made, run

PATH = str(TOP / 'sheet' / 'puzzles-sheet')

#: So many seeded puzzles are in the long list of each size up to 6, and of each game.
SEEDED = 15


class Maker:
    """The command, over a program, with what else its environment has."""

    def __init__(self, program: str, room: Room, more: Optional[Mapping[str, str]] = None) -> None:
        self.room = room
        self._env = {'PUZZLES_JSON': program, **(more or {})}

    def run(self, words: Sequence[str], input: bytes = b'', folder: Optional[Folder] = None, **how: Any) -> Ended:
        return run([PATH, *words], folder or self.room, input=input, env={**self._env, **how.pop('env', {})}, **how)

    def refuses(self, words: Sequence[str], status: int, told: str, input: bytes = b'', **how: Any) -> None:
        """With this status, and this alone is told."""
        ended = self.run(words, input, **how)
        assert (ended.status, ended.output, ended.error.decode()) == (status, b'', told)

    def page(self, words: Sequence[str], input: bytes = b'', told: str = '') -> str:
        """The page that is made, and all that is told beside it."""
        ended = self.run(words, input)
        assert (ended.status, ended.error.decode()) == (0, told), ended.error
        return ended.output.decode()


def stored(game: str, size: int, count: int) -> List[str]:
    """So many puzzles of the usual program's of a size, from all over them."""
    ids = made(game, size, 'tekhxur')
    return ids[:: len(ids) // count][:count]


def listed() -> List[str]:
    """The lines of a list of 200 puzzles: both games, all sizes."""
    lines: List[str] = []
    for game in ('towers', 'unequal'):
        lines += [f'{game} {size}!{seed}' for size in range(3, 7) for seed in range(SEEDED)]
        lines += [id for size, count in ((7, 14), (8, 13), (9, 13)) for id in stored(game, size, count)]
    assert len(lines) == 200
    return lines


def content(lines: Sequence[str]) -> bytes:
    return ''.join(f'{line}\n' for line in lines).encode()
