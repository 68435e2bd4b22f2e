"""The dialogs: what was chosen in one stays there until it has done its work; and the time stands still in each, as in a pause."""

from typing import Dict, List, Tuple

import pytest

from tests.page.playing import PHONE, TOWERS, Player, Scripted

#: The texts that are written under New, and how it is refused, at which field.
REFUSED: List[Tuple[Dict[str, str], str, str]] = [
    ({'number': '12a'}, 'number', 'The number of a game goes from 0 to'),
    ({'number': '12 34'}, 'number', 'The number of a game goes from 0 to'),
    ({'number': '-1'}, 'number', 'The number of a game goes from 0 to'),
    ({'number': '18446744073709551616'}, 'number', 'The number of a game goes from 0 to'),
    ({'id': 'hello'}, 'id', 'This is not a game.'),
    ({'id': '7!1'}, 'id', 'Seeded games have the sizes 3 to 6.'),
    ({'id': '5:abc'}, 'id', 'The ID has'),
    ({'id': '3:4///////////'}, 'id', 'The ID has'),
    ({'id': '#towers:5de#7'}, 'id', 'Seeds with # work in the usual program only.'),
]


FIELDS = ['game', 'size', 'grade', 'number', 'id']


@pytest.mark.parametrize('written, field, said', REFUSED, ids=[' '.join(written.values()) for written, _, _ in REFUSED])
def test_new_stays(player: Player, written: Dict[str, str], field: str, said: str) -> None:
    """A mistake is said at its field, and all that was chosen stays; once it is right, the game begins."""
    player.sit(TOWERS, PHONE)
    player.look('n', is_shown='#fresh')
    chosen = {'game': 'unequal', 'size': '4', 'grade': 'k', 'number': '', 'id': '', **written}
    for name in FIELDS:
        player.write(f'#fresh-{name}', chosen[name])
    player.look('{Begin}')
    player.driver.wait_for(f'document.querySelector("#fresh[open] #fresh-{field}:invalid")?.validationMessage.startsWith("{said}")')
    assert {name: player.value(f'document.querySelector("#fresh-{name}").value') for name in FIELDS} == chosen
    assert player.value('document.activeElement.id') == f'fresh-{field}'
    assert said not in player.text('#told')
    player.write('#fresh-id', '')
    player.look('{#fresh-number = 7}{Begin}', closes='#fresh', told='Unequal, tricky 4, number 7.')
    player.look('n', is_shown='#fresh')
    assert player.value('[...document.querySelectorAll("#fresh input")].map((node) => [node.value, node.validity.valid])')[:2] == [['', True], ['', True]]


#: The page's work of each second is done by us.
CLOCK = """
const plain = window.setInterval;
window.setInterval = (act, time) => (time === 1000 ? (window.second = act, 0) : plain(act, time));
"""


@pytest.fixture
def timed(scripted: Scripted) -> Player:
    """At a page whose seconds go by when we say so."""
    return scripted(CLOCK)


def after(player: Player, seconds: int) -> str:
    """The time that is shown when so many seconds have gone by."""
    player.value(f'(() => {{ for (let at = 0; at < {seconds}; at++) window.second(); return true; }})()')
    return player.text('#count').rpartition(' ')[2]


def test_stands_still(timed: Player) -> None:
    timed.sit(TOWERS, PHONE)
    assert after(timed, 5) == '0:05'
    for key, dialog in [('n', '#fresh'), ('o', '#games'), ('t', '#daily'), ('?', '#rules'), ('i', '#page'), ('S', '#ask')]:
        timed.look(key, is_shown=dialog)
        assert after(timed, 5) == '0:05', dialog
        timed.leaves(dialog)
    timed.look('{menu Pause}', is_shown='#pause')
    assert after(timed, 60) == '0:05'
    timed.look('{Go on}', closes='#pause')
    assert after(timed, 60) == '1:05'


def test_pause_covers_the_board(timed: Player) -> None:
    """Nothing of the board is seen in a pause."""
    timed.sit(TOWERS, PHONE)
    timed.look('{menu Pause}', is_shown='#pause')
    ground = 'getComputedStyle(document.querySelector("#pause"), "::backdrop").backgroundColor'
    assert timed.value(f'{ground} === getComputedStyle(document.documentElement).backgroundColor') is True
    assert timed.value('document.activeElement.textContent') == 'Go on'
