"""The database beside the browser's store: it comes back after each failure, has what the store has lost or has no room for, and nothing that was deleted."""

import base64
import hashlib
import json
from pathlib import Path
from typing import Iterator, List, Optional

import pytest

from tests.harness import Browser, Driver, Room
from tests.page.conftest import serving
from tests.page.playing import NO_JOURNAL, NOTHING_MORE, PHONE, TOWERS, UNEQUAL, Player, Scripted
from tests.page.seen import JOURNAL
from tests.page.test_keeping import FULL

#: Before the page: the database is refused once; or comes when it is told to.
REFUSED_ONCE = """
const {open} = IDBFactory.prototype;
let opens = 0;
IDBFactory.prototype.open = function (...words) {
  if (opens++) return open.apply(this, words);
  const request = {};
  setTimeout(() => request.onerror({}));
  return request;
};
"""
LATE = """
const {open} = IDBFactory.prototype, comes = new Promise((done) => { window.come = done; });
IDBFactory.prototype.open = function (...words) {
  const request = {};
  comes.then(() => {
    const own = open.apply(this, words);
    own.onsuccess = () => { request.result = own.result; request.onsuccess(); };
    own.onerror = () => request.onerror({});
  });
  return request;
};
"""

#: How long the page waits for its database: a busy machine has it later. And before a page from a disk: it waits as long as it takes.
PATIENCE, LONG = 'const PATIENCE = 2000;', 'const PATIENCE = 2000000;'
PATIENT = """
const {setTimeout: plain} = window;
window.setTimeout = (act, time, ...words) => plain(act, time === 2000 ? 2000000 : time, ...words);
"""

#: Makes a database, which is another page's; or one with all that the store has, as an earlier page has made it.
MADE = """new Promise((done) => {{
  const request = indexedDB.open('{name}');
  request.onupgradeneeded = () => request.result.createObjectStore('{store}');
  request.onsuccess = () => {{
    const writing = request.result.transaction('{store}', 'readwrite'), texts = writing.objectStore('{store}');
    for (const name of Object.keys(localStorage)) texts.put(localStorage[name], name);
    writing.oncomplete = () => {{ request.result.close(); done(true); }};
  }};
}})"""

#: All texts in the database.
IN_JOURNAL = """new Promise((done) => {
  const request = indexedDB.open('NAME');
  request.onerror = () => done([]);
  request.onsuccess = ({target: {result}}) => {
    if (!result.objectStoreNames.contains('texts')) { result.close(); done([]); return; }
    const all = result.transaction('texts').objectStore('texts').getAll();
    all.onsuccess = () => { result.close(); done(all.result); };
  };
})""".replace('NAME', JOURNAL)

NO_ROOM = 'has no room left'


@pytest.fixture
def patient(driver: Driver, page: Path, room: Room) -> Iterator[Player]:
    """At a page that waits for its database as long as it takes, from a server of its own: there is no database of any page yet, and none is deleted. For
    that WebKit would wait until it has left the pages before.
    """
    text = page.read_text(encoding='utf-8')
    script = text.rpartition('<script>')[2].partition('</script>')[0]
    assert PATIENCE in script and digest(script) in text
    longer = script.replace(PATIENCE, LONG)
    room.put('index.html', text.replace(script, longer).replace(digest(script), digest(longer)).encode())
    room.put('beside.html', b'<!doctype html>')
    with serving(room.path) as address, Player(driver, address) as player:
        yield player


def digest(script: str) -> str:
    """As the page's policy names a script."""
    return base64.b64encode(hashlib.sha256(script.encode()).digest()).decode()


def journals(player: Player, moves: int, at: Optional[int] = None) -> None:
    """Waits until a game in the database has so many moves, and so many of them done, all if that isn't told."""
    position = f'STATEPOS:1:{moves + 1 if at is None else at + 1}\\n'
    wanted = f'text.split("\\\\nMOVE ").length === {moves + 1} && text.includes({json.dumps(position)})'
    player.driver.wait_for(f'{IN_JOURNAL}.then((texts) => texts.some((text) => {wanted}))')


def forgets(player: Player, script: str) -> None:
    """The store is as a browser leaves it that was killed: as it was before, or otherwise by a script; and the page writes nothing more, whatever it finds."""
    player.value(f'(localStorage.clear(), sessionStorage.clear(), {script}, {NOTHING_MORE}, true)')


@pytest.mark.always
def test_refused_once(scripted: Scripted) -> None:
    """The next move opens it, and all moves are in it. The menu says so."""
    player = scripted(REFUSED_ONCE)
    player.load(TOWERS)
    player.look('1<right>2', 'row 1, column 2, 2')
    journals(player, 2)
    player.look('{Menu}', is_shown='#menu')
    assert 'You can close this page at any time.' in player.text('#about')


def test_never(scripted: Scripted) -> None:
    """Where it can't be had, the menu says what may be lost."""
    player = scripted('IDBFactory.prototype.open = () => { throw new DOMException("", "UnknownError"); };')
    player.load(TOWERS)
    player.look('1<right>2{Menu}', is_shown='#menu')
    assert 'may be gone if the browser is killed' in player.text('#about')


@pytest.mark.always
def test_back(player: Player, served: str) -> None:
    """A page that was left, and comes back as it was, goes on writing."""
    away = Player(player.driver, served)
    away.load(TOWERS)
    away.look('1', 'row 1, column 1, 1')
    journals(away, 1)
    away.driver.value('(window.isTheSame = true)')
    away.driver.go(served + 'icon.svg')
    away.driver.wait_for('!document.querySelector("[data-place]")')
    away.driver.back()
    away.driver.wait_for('document.querySelector("[data-place]")')
    away.look('<right>2', 'row 1, column 2, 2')
    journals(away, 2)
    away.forget()


def test_of_another_page(patient: Player) -> None:
    """Another page of the same origin may have made a database of this name without our texts."""
    patient.driver.go(f'{patient.address}beside.html')
    patient.value(MADE.format(name=JOURNAL, store='others'))
    patient.load(TOWERS)
    patient.look('1', 'row 1, column 1, 1')
    journals(patient, 1)


def test_of_an_earlier_page(patient: Player) -> None:
    """The games that it has kept in its database go on here, once."""
    patient.sit(TOWERS, PHONE)
    patient.look('1<right>2', 'row 1, column 2, 2')
    journals(patient, 2)
    patient.value(MADE.format(name='puzzles', store='texts'))
    # Nothing is in ours, as if it were new.
    patient.value(f'({NOTHING_MORE}, {NO_JOURNAL})')
    forgets(patient, 'true')
    patient.load()
    patient.look('', 'row 1, column 2, 2..')
    journals(patient, 2)
    patient.look('u', 'row 1, column 2, empty')
    journals(patient, 2, 1)
    forgets(patient, 'true')
    patient.load()
    patient.look('', 'row 1, column 2, empty..')


def test_deleted(player: Player) -> None:
    """A deleted game doesn't come back with a store that is older; nor is it begun again, though the day is over."""
    player.sit(TOWERS, PHONE)
    player.look('1', 'row 1, column 1, 1')
    player.begin('Unequal 3×3', id=UNEQUAL)
    player.look('', games='2')
    player.value('(window.before = {...localStorage}, true)')
    player.look('o', is_shown='#games')
    player.look('{#games-list li:nth-child(2) [data-gone]}', answer_once='Yes')
    player.has(1, '#games-list li')
    player.driver.wait_for('!Object.values(localStorage).some((text) => text.includes("Towers"))')
    player.driver.wait_for(f'{IN_JOURNAL}.then((texts) => texts.some((text) => text.includes(\'"gone"\')))')
    forgets(player, 'Object.assign(localStorage, window.before)')
    player.load()
    player.look('', called='Unequal 3×3')
    player.driver.wait_for('Object.keys(localStorage).filter((name) => name.startsWith("puzzles:game:")).length === 1')


def test_no_room(scripted: Scripted, browser: Browser) -> None:
    """A text for which the store has no room is in the database, and then nothing is lost, and nothing is said."""
    player = scripted(PATIENT + FULL)
    player.load(TOWERS)
    player.look('1<right>2', 'row 1, column 2, 2')
    journals(player, 2)
    assert NO_ROOM not in player.text('#told')
    browser.questions.clear()
    player.load()
    player.look('', 'row 1, column 2, 2..')
    assert browser.questions == []


def test_late(scripted: Scripted) -> None:
    """The moves of a database that comes late, and those that were made meanwhile, are two games then; and it is said."""
    player = scripted('')
    player.load(TOWERS)
    player.look('1', 'row 1, column 1, 1')
    player.value('(window.before = {...localStorage}, true)')
    player.look('<right>2<right>3', 'row 1, column 3, 3')
    journals(player, 3)
    forgets(player, 'Object.assign(localStorage, window.before)')
    player = scripted(LATE)
    player.load()
    player.look('', 'row 1, column 2, empty')
    player.look('<down>1', 'row 2, column 1, 1..')
    player.keeps([2])
    player.value('(window.come(), true)')
    player.look('', told='Moves that were kept before have come late.')
    player.look('', 'row 1, column 3, 3..')
    player.keeps([2, 3])
    kept: List[str] = [json.dumps(game['save']) for game in player.kept()]
    assert any('R0,1,1' in save for save in kept) and any('R2,0,3' in save for save in kept)


#: The clock stands in 1966, or is right.
CLOCK = """
const {now} = Date;
try { if (sessionStorage.clock) Date.now = () => now() - 60 * 365 * 86400000; } catch { /* A page without a store. */ }
"""


def test_clock(scripted: Scripted) -> None:
    """By a clock before 1970 a game is kept, and read again."""
    player = scripted(CLOCK)
    player.load(TOWERS)
    player.value('(sessionStorage.clock = 1, true)')
    player.load()
    player.look('1', 'row 1, column 1, 1')
    player.load()
    player.look('', 'row 1, column 1, 1..')
