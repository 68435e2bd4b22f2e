"""The texts that a player gives to others: the link to a game, the ID, and how it was solved, which shows nothing of the solution."""

import datetime
import json
from typing import Iterator

import pytest

from tests.harness import Driver
from tests.page.playing import LAPTOP, PHONE, TOWERS, Player
from tests.page.test_keeping import solve_by_hints

#: Notes what is copied; or lets no page copy.
NOTED = '{writeText: async (text) => { window.copied = text; }}'
REFUSED = '{writeText: async () => { throw new DOMException("", "NotAllowedError"); }}'


@pytest.fixture
def online(driver: Driver, served: str) -> Iterator[Player]:
    """At the page from a server."""
    with Player(driver, served) as player:
        yield player


def clipboard(player: Player, script: str) -> None:
    player.value(f'(Object.defineProperty(navigator, "clipboard", {{value: {script}, configurable: true}}), true)')


def copied(player: Player) -> str:
    player.driver.wait_for('window.copied')
    return str(player.value('window.copied'))


def test_link(online: Player) -> None:
    """Of a page on a server it is whole. Where the browser lets no page copy, it stands there to be copied by hand."""
    online.sit('towers-4-easy-20261127')
    clipboard(online, NOTED)
    online.look('{menu Copy link}', told='The link to this game is copied.')
    assert copied(online) == f'{online.address}#towers-4-easy-20261127'
    clipboard(online, REFUSED)
    online.menu('Copy link')
    online.driver.wait_for(f'document.querySelector("#page[open] #page-text")?.textContent === {json.dumps(copied(online))}')
    online.leaves('#page')
    online.look('i', reads=copied(online))


def test_name(player: Player) -> None:
    """A page from a disk has no address for others: what is copied says which game it is, and New takes it as a whole."""
    for link, name in [('towers-4-easy-7', 'Towers 4×4, easy, number 7'), (TOWERS, 'Towers 3×3')]:
        player.sit(link)
        clipboard(player, NOTED)
        player.look('{menu Copy link}', told='This page has no address for others, so the name of the game is copied.')
        text = copied(player)
        assert text.startswith(f'{name}: #')
        player.closes('#menu')
        player.begin('Unequal 4×4', id='unequal-4-easy-7')
        player.begin(name.split(',', maxsplit=1)[0], id=text)
        player.look('', told='You have begun this game before.')
        player.forget()


def test_result(player: Player) -> None:
    """A solved game of today tells of the days in a row, and the line for others has nothing of the solution."""
    today = datetime.date.today()
    days = [f'{today - datetime.timedelta(days=back):%Y%m%d}' for back in range(3)]
    player.sit(f'towers-3-easy-{days[0]}', PHONE)
    player.waits('is_gone', '#share')
    # The days before are put into the store of the page that is there: one that is opened anew may see an empty one, as `Driver.reload` says.
    solved = [{'kind': 'towers-3-easy', 'when': at, 'seconds': 9, 'hints': 0, 'number': day} for at, day in enumerate(days[1:])]
    player.value(f'(localStorage["puzzles:solved"] = {json.dumps(json.dumps(solved))}, true)')
    solve_by_hints(player)
    player.look('', told='3 days in a row.')
    clipboard(player, NOTED)
    player.look('{Copy result}', told='The result is copied.')
    text = copied(player)
    assert text.startswith(f'Towers 3×3, easy, {today.day} {today:%B %Y}: solved ')
    assert text.endswith(f'! 3 days in a row. #towers-3-easy-{days[0]}')
    player.look('t', is_shown='#daily')
    for size, streak in [('3', '3 days in a row.'), ('4', '')]:
        player.write('#daily-size', size)
        assert player.text('#daily-streak') == streak
    player.leaves('#daily')
    player.begin('Towers 4×4', game='towers', size='4', grade='e')
    player.is_gone('#share')


def test_result_of_a_server(online: Player) -> None:
    """The whole link is in it, and no time where that is switched off."""
    online.sit('towers-3-easy-7', LAPTOP)
    online.switch('Time and statistics')
    solve_by_hints(online)
    online.look('', told='Solved')
    hints = online.kept()[0]['hints']
    clipboard(online, NOTED)
    online.look('{Copy result}')
    assert copied(online) == f'Towers 3×3, easy, number 7: solved with {hints} hint{"s" if hints > 1 else ""}! {online.address}#towers-3-easy-7'
