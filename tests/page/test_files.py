"""Files that come onto the page and go from it: saves byte by byte, and all games in one file."""

import json
from typing import Any, Dict, List, Tuple, Union

import pytest

from tests.conftest import Programs
from tests.harness import Room, run, save_text
from tests.page.playing import LAPTOP, PHONE, TOWERS, UNEQUAL, Player

#: Records of a seed with bytes from 128 on: one letter for each byte, and two.
SEEDS = [b'SEED    :4:gr\xfcn\n', b'SEED    :7:gr\xc3\xb6\xc3\x9fe\n']


@pytest.mark.parametrize('seed', SEEDS, ids=['Latin-1', 'UTF-8'])
def test_bytes(player: Player, programs: Programs, room: Room, seed: bytes) -> None:
    """They stay what they are: the file is the one that the program writes."""
    save = save_text(2).replace(b'DESC    ', seed + b'DESC    ')
    room.put('a.sav', save)
    wanted = run([programs.puzzles, 'towers', '--load', 'a.sav'], room, input=b'move R2,0,3\nsave\n').output.partition(b'\n')[2]
    player.sit(TOWERS)
    player.drop(save, is_called='row 1, column 2, 2')
    player.look('{load}<right><right>3', 'row 1, column 3, 3')
    assert player.caught('w') == wanted
    assert seed in wanted


def export(player: Player) -> Dict[str, Any]:
    """All games, as the page writes them."""
    player.look('o', is_shown='#games')
    told: Dict[str, Any] = json.loads(player.caught('{Export all to one file}', closes='#games'))
    return told


def bring_in(player: Player, file: Dict[str, Any], said: str) -> None:
    player.drop(json.dumps(file).encode(), 'games.json', told=said)


def test_broken_text(player: Player) -> None:
    """A text in the place of a game that can't be read is named in the list, exported as it is, and stays."""
    text = '{"key": "b", "sav'
    player.sit(TOWERS, PHONE)
    player.value(f'(localStorage["puzzles:game:b"] = {json.dumps(text)}, true)')
    player.look('o', is_shown='#games')
    assert player.text('#games-unread').startswith('1 game more can’t be read.')
    player.leaves('#games')
    file = export(player)
    assert [game for game in file['games'] if isinstance(game, str)] == [text] and len(file['games']) == 2
    bring_in(player, file, '0 games imported. 1 were here already. 1 can’t be read.')
    # One that another page has mended comes in, and the broken one stays.
    game = {**next(game for game in file['games'] if isinstance(game, dict)), 'key': 'b', 'save': save_text(3).decode()}
    bring_in(player, {**file, 'games': [game]}, '1 game imported.')
    assert player.value('localStorage["puzzles:game:b"]') == text


#: The words that a file may have of a game, and the words that the page makes of them.
BOUNDS: List[Tuple[Dict[str, Any], str]] = [
    ({'turn': 2**53}, '1 can’t be read'),
    ({'turn': 2**40}, '1 can’t be read'),
    ({'seconds': 1e308}, '1 can’t be read'),
    ({'seconds': -5}, '1 can’t be read'),
    ({'when': 1e16}, '1 can’t be read'),
    ({'joined': [[3, 0]]}, '1 can’t be read'),
    ({'joined': [[2, 5]]}, '1 can’t be read'),
    ({'joined': [[5000000000, 2]]}, '1 game imported'),
]


def test_bounds(player: Player) -> None:
    """Numbers of a file have bounds: no game stands still for them, and the statistics stay what they are."""
    player.sit(TOWERS, LAPTOP)
    player.look('1<right>2u', 'row 1, column 2, empty')
    file = export(player)
    for change, said in BOUNDS:
        bring_in(player, {**file, 'games': [{**file['games'][0], **change, 'key': 'other', 'save': save_text(3, 2).decode()}]}, said)
    player.look('o', is_shown='#games')
    player.look('{#games-list [data-key=other]}', 'row 1, column 2, empty', closes='#games')
    player.look('r', 'row 1, column 2, 2..')
    solved = {'kind': 'towers-5-easy', 'number': '', 'when': 1, 'hints': 0}
    bring_in(player, {**file, 'games': [], 'solved': [{**solved, 'seconds': seconds} for seconds in (-5, 1e308)]}, '0 games')
    player.look('{menu Statistics}', is_shown='#statistics')
    assert player.value('document.querySelectorAll("#statistics td").length') == 0


def test_import_joins(player: Player) -> None:
    """An older state of a game that is here changes nothing, a later one takes its place, and moves that it doesn't have stay beside it."""
    player.sit(TOWERS, LAPTOP)
    player.look('1', 'row 1, column 1, 1')
    older = export(player)
    player.look('<right>2', 'row 1, column 2, 2')
    later = export(player)
    bring_in(player, older, '0 games imported. 1 were here already.')
    assert player.moves() == ['R0,0,1', 'R1,0,2'] and len(player.kept()) == 1
    player.forget()
    player.load('towers-4-easy-1')
    bring_in(player, older, '1 game imported.')
    bring_in(player, later, '1 game imported.')
    player.keeps([0, 2])
    player.look(f'{{load {TOWERS}}}', 'row 1, column 2, 2..')
    game = later['games'][0]
    other = {**game, 'turn': game['turn'] + 3, 'save': save_text(1).replace(b'R0,0,1', b'R0,0,3').decode()}
    bring_in(player, {**later, 'games': [other]}, '1 game imported.')
    player.is_called('row 1, column 1, 3')
    player.keeps([0, 1, 2])


#: Dropped files that are no saves of these games, and the sentences on them.
BAD_FILES: List[Tuple[Union[bytes, int], str]] = [
    (b'', 'This is not a save file of the collection'),
    (b'no save', 'This is not a save file of the collection'),
    (save_text(0).replace(b'6:Towers', b'28:<img src=x onerror=alert(1)>'), 'That is a save of <img src=x onerror=alert(1)>, which is not played here.'),
    (save_text(2).replace(b'R1,0,2', b'R9,0,2'), 'Move 2 of that save can’t be made on its board.'),
    (17_000_000, 'That file is too large'),
]


def test_bad_files(player: Player) -> None:
    """The game stays."""
    player.sit(TOWERS)
    player.look('1', 'row 1, column 1, 1')
    for content, said in BAD_FILES:
        player.drop(content, told=said)
    assert player.moves() == ['R0,0,1'] and len(player.kept()) == 1
    assert player.value('document.images.length') == 0


def test_all_in_one_file(player: Player) -> None:
    """All games go out as one file, and come in again where they are gone; a damaged one is counted, and what stands there already is passed over."""
    player.sit(TOWERS, LAPTOP)
    player.look('1', 'row 1, column 1, 1')
    player.begin('Unequal 3×3', id=UNEQUAL)
    told = export(player)
    player.forget()
    player.load('towers-4-easy-1')
    bring_in(player, {**told, 'games': [*told['games'], {'key': 'x'}, {**told['games'][0], 'key': 'y', 'save': 'none'}]}, '2 games imported. 2 can’t be read.')
    assert len(player.kept()) == 3
    bring_in(player, told, '0 games imported. 2 were here already.')
    bring_in(player, {'format': 1}, 'This page did not write that file')
    player.look(f'{{load {TOWERS}}}', 'row 1, column 1, 1..')
