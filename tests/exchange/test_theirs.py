"""Saves and IDs of the usual program, opened by ours; and what doesn't go across."""

import re
from typing import List

import pytest

from tests.exchange.sides import Sides

#: The kinds of puzzles that the usual program makes: sizes and difficulties.
GENERATED = {
    'towers': ['3de', '4dh', '5dx', '6du', '7de', '8de', '9de'],
    'unequal': ['3dt', '4de', '5dk', '6dx', '7de', '8de', '9de'],
}

#: Saves that ours refuses, as it says.
REFUSED = [('unequal', '5adk', 'refused: BadParams'), ('unequal', '10dt', 'refused: BadParams')]

#: How many puzzles are made of each kind.
PUZZLES = 2


@pytest.mark.parametrize(('game', 'kind', 'said'), REFUSED)
def test_refused(sides: Sides, game: str, kind: str, said: str) -> None:
    sides.makes(game, *saving(1, f'refused-{game}-{kind}-'), kind)
    assert sides.said(game, [f'--load=refused-{game}-{kind}-0.sav'], 'status') == said


def saving(count: int, front: str) -> List[str]:
    """The words by which the usual program makes saves, FRONT0.sav and so on."""
    return ['--generate', str(count), '--save', front, '--save-suffix', '.sav']


@pytest.mark.parametrize(('game', 'kind'), [(game, kind) for game, kinds in GENERATED.items() for kind in kinds])
def test_generated(sides: Sides, game: str, kind: str) -> None:
    """Saves and IDs that the usual program makes, fresh and with their solutions."""
    sides.makes(game, *saving(PUZZLES, 'theirs'), kind)
    for save in [f'theirs{number}.sav' for number in range(PUZZLES)]:
        sides.opens(game, save)
        sides.solution(game, f'--load={save}')
    sides.makes(game, '--with-solutions', *saving(PUZZLES, 'solved'), kind)
    for save in [f'solved{number}.sav' for number in range(PUZZLES)]:
        sides.opens(game, save)
        solutions = re.findall(r'^SOLVE *:\d+:(.*)$', (sides.room.read(save) or b'').decode(), re.MULTILINE)
        assert sides.said(game, [f'--load={save}'], 'undo', 'solve').splitlines() == ['ok', *solutions]
    puzzles = sides.makes(game, '--generate', str(PUZZLES), kind)
    assert len(puzzles) == PUZZLES
    for puzzle in puzzles:
        assert sides.said(game, [f'--id={puzzle}'], 'id') == puzzle
