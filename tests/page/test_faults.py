"""The faults that may come: the module ends in a trap, works for too long, or has no memory; and saves and names from people who mean ill."""

import json
from pathlib import Path
from typing import Iterator, List, Tuple

import pytest

from tests.harness import Browser, Driver, Room, save_text
from tests.page.playing import PHONE, TOWERS, UNEQUAL, Player

#: Before and after the text of the worker: some lines fail as the engine fails, one in the worker itself, one takes forever, and what is put in at the
#: desk takes a while, as does the grade of a game.
BEFORE = """
const make = WebAssembly.instantiate;
let line = '';
WebAssembly.instantiate = async (...words) => {
  const {module, instance} = await make(...words), exports = {...instance.exports}, turn = exports.puzzles_turn;
  exports.puzzles_turn = (...all) => { if (line === 'move R1,0,2') throw new WebAssembly.RuntimeError('unreachable'); return turn(...all); };
  return {module, instance: {exports}};
};
"""
AFTER = """
const answer = self.onmessage;
self.onmessage = (event) => {
  const end = Date.now() + 700;
  [line = ''] = event.data.lines ?? [];
  if (line === 'move R2,0,2') throw new Error('the worker fails');
  while (line === 'completable' || /^(item|grade)/.test(line) && Date.now() < end) Math.random();
  return answer(event);
};
"""

WORKER = '<script type="text/plain" id="worker">'


@pytest.fixture
def failing(driver: Driver, page: Path, room: Room) -> Iterator[Player]:
    """At a page whose worker fails."""
    before, _, rest = page.read_text(encoding='utf-8').partition(WORKER)
    worker, _, after = rest.partition('</script>')
    room.put('failing.html', f'{before}{WORKER}{BEFORE}{worker}{AFTER}</script>{after}'.encode())
    with Player(driver, f'file://{room.path}/failing.html') as player:
        yield player


@pytest.mark.always
def test_trap(failing: Player) -> None:
    """It is said, nothing has changed, and play goes on in a new worker."""
    failing.sit(TOWERS)
    failing.look('1<right>2', told='The program failed at that. It has begun anew, and the game is as it was.')
    failing.look('3<down>1', 'row 1, column 2, 3', 'row 2, column 2, 1', moved='R0,0,1 R1,0,3 R1,1,1')


def test_worker_fails(failing: Player) -> None:
    """The same, where it isn't the module that fails."""
    failing.sit(TOWERS)
    failing.look('1<right><right>2', told='The program failed at that. It has begun anew, and the game is as it was.')
    failing.look('3<left>3', 'row 1, column 3, 3..', 'row 1, column 2, 3..', moved='R0,0,1 R2,0,3 R1,0,3')


def test_stopped(failing: Player) -> None:
    """A search that takes long is said to, the page isn't stopped by it, and its player ends it."""
    failing.sit(TOWERS, PHONE)
    # Nothing else is at work, as for the grade.
    failing.look('1', 'row 1, column 1, 1', counts='easy by our steps')
    failing.look('c', told='The program is at work.')
    failing.look('<right>', chose='1,0')
    failing.look('{#offer}', told='Stopped. Nothing has changed.')
    failing.look('3', 'row 1, column 2, 3')


def test_slow_grade(failing: Player) -> None:
    """The page asks for it by itself, and says that the program is at work: what was told before is seen again then."""
    failing.sit(TOWERS, PHONE)
    failing.look('1', 'row 1, column 1, 1')
    failing.look(f'{{load {TOWERS}}}', counts='easy by our steps', told='You have begun this game before.')


def test_slow_desk(failing: Player) -> None:
    """A text that is put in is there, however long that takes and whatever is pressed meanwhile."""
    failing.sit(TOWERS)
    failing.look('{menu Check or set a puzzle}', counts='0 given')
    failing.go_to(0, 0)
    for key in ('1', '<right>', '2', '<right>', '3', '<down>', '1'):
        failing.press(key)
        failing.value('new Promise((done) => setTimeout(done, 440))')
    failing.look('', counts='4 given')


def test_names_are_text(player: Player) -> None:
    """Whatever a save or a file of games has in it, stands on the page as text."""
    player.sit(TOWERS, PHONE)
    player.drop(save_text(2).replace(b'NSTATES', b'AUXINFO :13:<img onerror>\nNSTATES', 1), is_called='row 1, column 2, 2')
    player.look(':', is_shown='#ask')
    player.look('save<enter>', reads='<img onerror>')
    assert player.text('#page-title') == 'save'
    player.leaves('#page')
    player.look(':', is_shown='#ask')
    player.driver.type('<img src=x onerror=alert(1)>')
    player.look('<enter>', told='There is no such command.')
    assert player.value('document.images.length') == 0 and player.value('document.title') == 'Towers 3×3'


#: The texts that another page from the same disk may have written where ours keeps its games.
SPOILED: List[Tuple[str, str]] = [
    ('puzzles:now', '<img src=x>'),
    ('puzzles:game:a', 'no object'),
    ('puzzles:game:b', '{"key": "b", "save": 7}'),
    ('puzzles:game:c', 'null'),
    ('puzzles:settings', '[1'),
    ('puzzles:settings', '{"kind": "<b>", "tidy": "yes"}'),
    ('puzzles:solved', '{}'),
    ('puzzles:solved', '[null, {"kind": "<img src=x>", "number": "", "when": 1, "seconds": 2, "hints": 0}]'),
]


def test_spoiled(player: Player) -> None:
    """It is passed over, and stays."""
    player.sit(TOWERS, PHONE)
    for name, text in SPOILED:
        player.value(f'(localStorage[{json.dumps(name)}] = {json.dumps(text)}, true)')
        player.look('{load}{menu Statistics}', is_shown='#statistics', leaves='#statistics')
        player.look('o', is_shown='#games')
        assert player.value('document.images.length') == 0
        player.leaves('#games')
    player.begin('Unequal 3×3', id=UNEQUAL)
    assert player.value('localStorage["puzzles:game:a"]') == 'no object'


@pytest.mark.always
def test_policy(piped: Player, browser: Browser) -> None:
    """Nothing goes out, no other script runs, and no text becomes markup."""
    piped.sit(TOWERS)
    policy = piped.value('document.querySelector("meta[http-equiv]").content')
    assert policy.startswith("default-src 'none';") and 'unsafe-inline' not in policy and 'connect-src' not in policy
    markup = ['document.body.innerHTML = "<b>"', 'document.body.insertAdjacentHTML("beforeend", "<b>")', 'document.createElement("script").text = "1"']
    for script in markup:
        assert piped.value(f'(() => {{ try {{ {script}; return "done"; }} catch (fault) {{ return fault.name; }} }})()') == 'TypeError', script
    assert piped.value('fetch("data:,x").then(() => "came", () => "refused")') == 'refused'
    assert piped.value('performance.getEntriesByType("resource").length') == 0
    browser.complaints.clear()
