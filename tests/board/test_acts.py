"""A player's acts are the same lines of the program on the board and on the page: the rows of tests/acts.json, which tests/page/unit plays, too."""

import json
from typing import Any, Dict, List, Optional, Sequence

import pytest

from playing import texts
from playing.board import Reply
from playing.game import Game
from playing.moves import WALKS
from playing.present import GO, MARKS, STAY
from playing.state import State
from tests.harness import TOP

ROWS: List[Dict[str, Any]] = json.loads((TOP / 'tests' / 'acts.json').read_text(encoding='utf-8'))


class Noted(Game):
    """A game that notes the lines by which it is played."""

    noted: List[str] = []

    def ask(self, line: str) -> Optional[Reply]:
        if line.split()[0] in ('move', 'restart', *WALKS):
            self.noted.append(line)
        return super().ask(line)


class Patient:
    """A player who waits, and says yes."""

    def confirm(self, _: str) -> bool:
        return True

    def choose(self, _: str, rows: Sequence[str]) -> Optional[int]:
        return 0 if rows else None

    def waiting(self, _: bool) -> bool:
        return False


def does(game: Game, act: str) -> None:
    """As the keys of the board do."""
    word, _, rest = act.partition(' ')
    place, _, number = rest.partition(' ')
    if word == 'possible':
        game.set_possible_marks()
    elif word == 'keep':
        keep(game)
    else:
        lines = {'typed': rest, 'all': 'move M', 'number': f'move R{place},{number}', 'mark': f'move P{place},{number}'}
        game.play(lines.get(word, act))


def keep(game: Game) -> None:
    """After all steps of a hint."""
    walk = game.hint_walk()
    assert walk
    walk.skip_to_steps()
    assert game.told_walk is walk
    game.keep_ruled_out(walk)


@pytest.mark.parametrize('row', ROWS, ids=[row['name'] for row in ROWS])
def test_acts(row: Dict[str, Any], objects: str) -> None:
    game = Noted(objects, State({}))
    game.played_by(Patient(), texts.BY_KEYS)
    game.state.choose(MARKS, GO if row['do marks go'] else STAY)
    assert game.begin(row['game'], row['id'])
    for at, (act, lines) in enumerate(row['acts']):
        game.noted = []
        does(game, act)
        assert (at, act, game.noted) == (at, act, lines)
    game.leave()
