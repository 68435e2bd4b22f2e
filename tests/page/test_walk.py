"""All steps of a hint on the page: the name at the head of each, and the places that it tints, as the object of puzzles-json has them."""

from typing import Any, Mapping, Set

import pytest

from playing.board import Hint
from playing.program import Program
from tests.page.playing import LAPTOP, PHONE, Player

#: Boards of docs/HINTS.md: a game, an ID, and the column, row and number of a move.
BOARDS = {
    'a square that has to be known': ('towers', '4dh:/2/3////////3//2///,o2', '0,0,4', LAPTOP),
    'two places of the tallest tower': ('towers', '4dh:/2///////2/3//////', '', PHONE),
    'the numbers in a column': ('towers', '4dh:///3//////2/2//3///,c1j1a', '3,3,2', LAPTOP),
    'signs': ('unequal', '3de:0R,0,1,0,0,0,0,0,0L,', '', LAPTOP),
    'steps of one sentence': ('unequal', '4de:0,0L,0,0L,0,0D,0,0D,0,0L,0,0,0,0,0,0,', '', PHONE),
    'a square without a number': ('unequal', '3de:0,0,0,0,0,0,3,0U,0,', '0,0,2', LAPTOP),
    'a number without a square': ('towers', '4dh:///2/////3//////2/1', '2,1,4', LAPTOP),
}

#: The sentences that are listed, and the places that are tinted now.
LISTED = '[...document.querySelectorAll("#steps button")].map((node) => node.textContent)'
TINTED = '[...document.querySelectorAll(".rests[data-place]")].map((node) => node.dataset.place)'


def hint_of(objects: str, game: str, id: str, move: str) -> Hint:
    with Program(objects, game, ['--id', id]) as program:
        if move:
            program.ask(f'move R{move}')
        hint = program.ask('hint').hint
    assert hint
    return hint


def tinted(step: Mapping[str, Any], size: int) -> Set[str]:
    """The places of a step: of a clue the squares that its sentence names, and all of its line where the object has none."""
    cells = [*(step['cells'] or []), *(cell for cell in (step['greater'], step['less']) if cell is not None)]
    places = {(cell % size, cell // size) for cell in cells}
    if step['clue'] is not None:
        x, y = step['x'], step['y']
        named = {told['cell'] for told in [*step.get('known', []), *step.get('split', [])]}
        line = {(x, at) if y in (-1, size) else (at, y) for at in range(size)}
        places |= {(x, y)} | ({(cell % size, cell // size) for cell in named} or line)
    return {f'{x},{y}' for x, y in places}


@pytest.mark.always
@pytest.mark.parametrize('board', BOARDS)
def test_walk(player: Player, objects: str, board: str) -> None:
    """A program without names has none at the head."""
    game, id, move, window = BOARDS[board]
    hint, size = hint_of(objects, game, id, move), int(id[0])
    player.sit(f'{game}:{id}', window)
    if move:
        x, y, number = move.split(',')
        player.look(f'{{{x},{y}}}{{{number}}}', f'row {int(y) + 1}, column {int(x) + 1}, {number}..')
    player.look('H', is_shown='#walk')
    groups = [[hint.told[sum(hint.groups[:at]) + count] for count in range(length)] for at, length in enumerate(hint.groups)]
    names = [list(dict.fromkeys(step.get('name') for step in group)) for group in groups] + [[hint.name]]
    heads = ['; '.join(filter(None, each)) for each in names]
    assert player.value(LISTED) == [f'{head}. {each.text}' if head else each.text for head, each in zip(heads, hint.sentences)]
    for at, group in enumerate(groups):
        player.look(f'{{#steps li:nth-child({at + 1}) button}}', matches=f'#steps li:nth-child({at + 1}) [aria-current=step]')
        assert set(player.value(TINTED)) == set().union(*(tinted(step, size) for step in group))
