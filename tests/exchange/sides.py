"""The two sides: our program, and the usual program of each game; and what one does with a save of the other."""

import os
import re
import shutil
from typing import Dict, Iterable, List, Sequence

import pytest

from tests.harness import Ended, Room, Skip, run

#: Debian has the usual programs in the last folder.
PATH = f'{os.environ.get("PATH", os.defpath)}:/usr/games'

#: How long a program may take, for a few puzzles.
SECONDS = 600


class Sides:
    """Both programs, in a room with the saves and pictures that they make."""

    def __init__(self, room: Room, program: str) -> None:
        self.room = room
        self._program = program

    # Our side

    def ours(self, game: str, options: Sequence[str], commands: Iterable[str]) -> Ended:
        """Our program, with a line for each command."""
        script = ''.join(f'{command}\n' for command in commands)
        return run([self._program, game, *options], self.room, input=script.encode(), seconds=SECONDS)

    def said(self, game: str, options: Sequence[str], *commands: str) -> str:
        """The answers of our program, in good order or not, without the last end of a line."""
        return self.ours(game, options, commands).said.rstrip('\n')

    def solution(self, game: str, option: str) -> str:
        """The numbers that our program finds."""
        solution = self.said(game, [option], 'solve')
        assert re.fullmatch('S[1-9]+', solution)
        return solution[1:]

    def make_save(self, game: str, save: str, options: Sequence[str], commands: Sequence[str] = ()) -> None:
        """Makes a save by commands; those that the puzzle refuses do nothing. The command writes the same as the option."""
        ended = self.ours(game, [*options, f'--save={save}'], [*commands, 'save'])
        assert ended.status == 0, ended.error
        assert ended.output.endswith(self.room.read(save) or b'nothing')
        self.opens(game, save)

    # Their side

    def theirs(self, game: str, *words: str, ids: Sequence[str] = ()) -> Ended:
        """The usual program, which reads these IDs where it isn't to make any."""
        given = ''.join(f'{id}\n' for id in ids).encode()
        return run([f'sgt-{game}', *words], self.room, input=given, env={'PATH': PATH}, seconds=SECONDS)

    def draws(self, game: str, kind: str, what: str, picture: str) -> None:
        """The usual program shows a save, or the puzzle of an ID, as a picture. It answers no status where that can't be had."""
        if self.room.status(picture):
            self.room.remove(picture)
        ended = self.theirs(game, kind, '--screenshot', picture, what)
        assert self.room.read(picture), ended

    def makes(self, game: str, *words: str) -> List[str]:
        """The output of the usual program, line by line."""
        ended = self.theirs(game, *words)
        assert ended.status == 0, ended
        return ended.output.decode().splitlines()

    def solves(self, game: str, ids: Sequence[str]) -> List[Dict[str, str]]:
        """The records of the saves that the usual program makes of the puzzles of these IDs, each with its own solution, by their keys."""
        ended = self.theirs(game, '--with-solutions', '--save', 'theirs', '--save-suffix', '.sav', ids=ids)
        assert ended.status == 0, ended
        saves = [(self.room.read(f'theirs{number}.sav') or b'').decode() for number in range(len(ids))]
        return [dict(re.findall(r'^(\w+) *:\d+:(.*)$', save, re.MULTILINE)) for save in saves]

    # Both

    def opens(self, game: str, save: str) -> None:
        """A save loads at both sides, and is written again by ours with the same bytes."""
        self.draws(game, '--load', save, picture_of(save))
        ended = self.ours(game, [f'--load={save}', '--save=again'], ['status'])
        assert ended.status == 0, ended.error
        assert self.room.read('again') == self.room.read(save)

    def look_alike(self, save: str, other: str) -> None:
        """Two saves show the same to the usual program."""
        assert self.room.read(picture_of(save)) == self.room.read(picture_of(other)), f'{save} and {other}'

    def has_lines(self, save: str, patterns: Iterable[str]) -> None:
        text = (self.room.read(save) or b'').decode(errors='replace')
        for pattern in patterns:
            assert re.search(pattern, text, re.MULTILINE), pattern


def picture_of(save: str) -> str:
    return f'{save[: -len(".sav")]}.png'


@pytest.fixture
def sides(program: str, room: Room) -> Sides:
    for usual in ('sgt-towers', 'sgt-unequal'):
        if not shutil.which(usual, path=PATH):
            raise Skip(f'there is no {usual}', 'apt-get install sgt-puzzles')
    return Sides(room, program)
