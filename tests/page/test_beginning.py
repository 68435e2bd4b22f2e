"""Which game begins, and what is said of it: solved boards, refused links, games that can't be read, and browsers that can't run the page."""

import json
from typing import Dict, List

import pytest

from tests.conftest import Programs
from tests.harness import BLANK, Browser, Room, run
from tests.page.playing import NO_JOURNAL, PHONE, THERE, TOWERS, Player, Scripted
from tests.page.test_keeping import solve_by_hints

#: The first numbers by chance are 7, and all others this one: so many more digits make a number of eight.
SEVENS = '((left) => { Math.random = () => (left-- > 0 ? 7.5e-8 : 0.123456789); return true; })'


def solved(player: Player, link: str) -> None:
    player.load(link)
    solve_by_hints(player)
    player.look('', told='Solved')


def test_solved_by_chance(player: Player) -> None:
    """A number by chance whose board is solved already counts as one without a game; where there are no others its board begins anew."""
    player.driver.size(*PHONE)
    solved(player, 'towers-3-easy-7')
    player.value(f'{SEVENS}(3)')
    player.look('{#offer}', counts='0 of 9')
    assert player.kept()[0]['fair']['number'] == '12345678'
    solved(player, 'towers-3-easy-7')
    player.value(f'{SEVENS}(1000)')
    player.begin('Towers 3×3', game='towers', size='3', grade='e')
    player.look('', counts='0 of 9')
    assert player.kept()[0]['fair']['number'] == '7'


def same_board(programs: Programs, room: Room) -> List[int]:
    """Two numbers that have the same board."""
    first: Dict[str, int] = {}
    for number in range(1000):
        line = run([programs.objects, 'towers'], room, input=f'fair 3 e {number}\n'.encode()).output
        id = json.loads(line)['session']['id']
        if id in first:
            return [first[id], number]
        first[id] = number
    raise AssertionError('there are none')


def test_day_begins_anew(player: Player, programs: Programs, room: Room) -> None:
    """A board that was solved under another number, as one of another day, can be solved once more; under its own number it is there as it was."""
    player.driver.size(*PHONE)
    before, day = same_board(programs, room)
    solved(player, f'towers-3-easy-{before}')
    solved(player, f'towers-3-easy-{day}')
    assert [game['number'] for game in json.loads(player.value('localStorage["puzzles:solved"]'))] == [str(before), str(day)]
    player.look(f'{{load towers-3-easy-{before}}}', told='Solved', games='2')


#: Links that are refused, or from people who mean ill, and what is said of some.
LINKS = [
    ('towers:7!1', 'Seeded games have the sizes 3 to 6.'),
    ('towers:9:', 'The ID has too few clues or squares.'),
    ('towers:5de#7', 'Seeds with # work in the usual program only.'),
    ('what', 'This is not a game.'),
    ('<img src=x onerror=alert(1)>', ''),
    ('%3Cscript%3Ealert(1)%3C/script%3E', ''),
    ('towers:5dh:%3Cimg%20src=x%3E', ''),
    ('towers-9-hard-99999999999999999999999', ''),
    ('towers-99-hard-1', ''),
    ('javascript:alert(1)', ''),
    ('towers:' + '1' * 5000, ''),
    ('%E0%A4%A', ''),
    ('__proto__-5-easy-1', ''),
    ('unequal:constructor', ''),
]


def test_refused_links(player: Player) -> None:
    """The page begins all the same, with another game: the reason stands there when it is ready, and no welcome takes its place."""
    for link, said in LINKS:
        player.look(f'{{load {link}}}', counts='0 of', games='1')
        player.settles()
        assert player.text('#told').startswith(said), link
        assert player.value('document.images.length + document.scripts.length') == 4, link
    player.forget()
    player.look('{load}', told='Choose a square, then a number.')


@pytest.mark.parametrize('spoil', ['JSON.stringify({...JSON.parse(text), save: "none"})', 'text.slice(0, 99)'], ids=['save', 'text'])
def test_damaged(player: Player, spoil: str) -> None:
    """A kept game that can't be read is named, another one begins, and it stays."""
    player.sit(TOWERS)
    name = player.value('Object.keys(localStorage).find((name) => name.startsWith("puzzles:game:"))')
    text = player.value(f'((name, text) => (localStorage[name] = {spoil}))({json.dumps(name)}, localStorage[{json.dumps(name)}])')
    # The database has nothing better.
    player.value(NO_JOURNAL)
    player.value('(Storage.prototype.setItem = () => undefined, true)')
    player.driver.reload(THERE)
    player.look('', counts='0 of')
    player.settles()
    assert player.text('#told') == 'That kept game can’t be read. It stays as it is.'
    assert player.value(f'localStorage[{json.dumps(name)}]') == text


#: Browsers that can't begin a worker, each in its way.
WORKERLESS = {
    'none': 'delete window.Worker;',
    'throws': 'window.Worker = class { constructor() { throw new DOMException("no", "SecurityError"); } };',
    'fails': 'window.Worker = class { postMessage() { setTimeout(() => this.onerror({message: "no"})); } terminate() {} };',
    'no module': 'const Own = Worker; window.Worker = class extends Own { postMessage() { super.postMessage({packed: "!"}); } };',
}


@pytest.mark.parametrize('script', WORKERLESS.values(), ids=list(WORKERLESS))
def test_no_worker(scripted: Scripted, script: str) -> None:
    """A sentence says so, in the place of an empty page."""
    player = scripted(script)
    player.driver.go(BLANK)
    player.driver.go(player.address)
    player.driver.wait_for('document.querySelector("#told")?.textContent.startsWith("This browser can’t run the game")')


def test_fault_of_the_page(piped: Player, browser: Browser) -> None:
    """A fault that nobody expected is said."""
    piped.sit(TOWERS)
    piped.value('(Promise.reject(new Error("unexpected")), true)')
    piped.look('', told='Something failed on this page.')
    browser.complaints.clear()
