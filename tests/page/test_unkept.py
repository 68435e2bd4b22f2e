"""Nothing is lost of what the store has no room for, nor of what it loses; and the player knows."""

import json
from typing import List

import pytest

from tests.harness import HEAD, Browser
from tests.page.playing import NOTHING_MORE, PHONE, TOWERS, UNEQUAL, Player, Scripted
from tests.page.seen import JOURNAL, at
from tests.page.test_keeping import FULL, NO_DATABASE, REFUSED

#: A game that takes much room.
MOVES = 4_000
LARGE = HEAD + b'NSTATES :4:%d\nSTATEPOS:4:%d\n' % (MOVES + 1, MOVES + 1) + b'MOVE    :6:R0,0,1\nMOVE    :6:R0,0,2\n' * (MOVES // 2)

#: Fills the store, but for so many letters.
FILL = """((left) => {
  localStorage.spare = 'x'.repeat(left);
  for (let size = 1 << 20; size; size >>= 1) {
    try { for (let number = 0; ; number++) localStorage[`filler ${size} ${number}`] = 'x'.repeat(size); } catch { /* Smaller ones. */ }
  }
  localStorage.removeItem('spare');
  return true;
})"""

NO_ROOM = 'has no room left'

#: Nor has the database any.
NO_MORE = 'IDBObjectStore.prototype.put = () => { throw new DOMException("", "QuotaExceededError"); }'


def from_list(player: Player, title: str) -> None:
    """Goes on with the first game of the list that has this title."""
    player.look('o', is_shown='#games')
    player.look(f'{{{item(player, title, ".pictured")}}}', closes='#games', called=title)


def item(player: Player, title: str, button: str) -> str:
    """The selector of a button of that game."""
    number = player.value(f'[...document.querySelectorAll("#games-list b")].findIndex((node) => node.textContent.startsWith({json.dumps(title)}))')
    return f'#games-list li:nth-child({number + 1}) {button}'


def test_room_again(player: Player) -> None:
    """Moves that had no room are kept as soon as there is some, though another game is played by then; until then it is said."""
    player.sit('towers-4-easy-5', PHONE)
    player.load(UNEQUAL)
    player.drop(LARGE)
    player.look('', called='Towers 3×3')
    player.value(f'{FILL}(0)')
    player.value(f'({NO_MORE}, true)')
    from_list(player, 'Towers 4×4')
    player.driver.click(at(*player.value('document.querySelector("[aria-label$=empty]").dataset.place').split(',')))
    player.look('123', told=NO_ROOM)
    from_list(player, 'Unequal 3×3')
    player.look('', told=NO_ROOM)
    player.look('o', is_shown='#games')
    player.look(f'{{{item(player, "Towers 3×3", "[data-gone]")}}}', answer_once='Yes')
    player.driver.wait_for(f'!document.querySelector("#told").textContent.includes({json.dumps(NO_ROOM)})')
    found = [game['save'].count('\nMOVE ') for game in player.kept() if game['id'].startswith('4')]
    assert found == [3]


@pytest.mark.parametrize(
    'script, asked', [('', []), (REFUSED + NO_DATABASE, ['beforeunload']), (FULL + NO_DATABASE, ['beforeunload'])], ids=['kept', 'refused', 'full']
)
def test_asks_before_it_closes(scripted: Scripted, browser: Browser, script: str, asked: List[str]) -> None:
    """While something isn't kept, and never otherwise."""
    player = scripted(script)
    player.load(TOWERS)
    player.look('1', 'row 1, column 1, 1')
    browser.questions.clear()
    player.load()
    assert browser.questions == asked


#: The texts of the database.
TEXTS = """new Promise((done) => {
  indexedDB.open('NAME').onsuccess = ({target: {result}}) => {
    const all = result.transaction('texts').objectStore('texts').getAll();
    all.onsuccess = () => { result.close(); done(all.result); };
  };
})""".replace('NAME', JOURNAL)


def test_lost_by_the_store(player: Player) -> None:
    """The texts that the store has lost, as after a kill, are in the database: moves, a game, what was shown last, and settings."""
    player.sit(TOWERS, PHONE)
    player.value('(window.before = {...localStorage}, true)')
    player.look('1<right>2M', told='From now on, marks go')
    player.begin('Unequal 3×3', id=UNEQUAL)
    player.look('1', 'row 1, column 1, 1..')
    player.driver.wait_for(f'{TEXTS}.then((texts) => texts.some((text) => text.includes("Unequal") && text.includes("R0,0,1")))')
    player.value(f'(localStorage.clear(), sessionStorage.clear(), Object.assign(localStorage, window.before), {NOTHING_MORE}, true)')
    player.load()
    if player.text('#title') != 'Unequal 3×3' or player.name('row 1, column 1') == 'row 1, column 1, empty, less than right, less than below':
        # The page waits two seconds for its database, and begins without it where that is late, as on a busy machine. The texts of the database come into the
        # store then, and is there when the page is opened in another tab.
        player.driver.wait_for('Object.values(localStorage).some((text) => text.includes("Unequal") && text.includes("R0,0,1"))')
        player.value('(sessionStorage.clear(), true)')
        player.load()
    player.look('', 'row 1, column 1, 1..', called='Unequal 3×3')
    from_list(player, 'Towers 3×3')
    player.is_called('row 1, column 2, 2..')
    player.look('{Menu}', is_shown='#menu')
    assert player.value('document.querySelector("[data-set=tidy]").ariaPressed') == 'true'


#: Notes how the page asks for its database and for its place in the browser.
NOTING = """
window.asked = 0;
window.durabilities = [];
if (window.StorageManager) StorageManager.prototype.persist = async () => { window.asked++; return true; };
const {transaction} = IDBDatabase.prototype;
IDBDatabase.prototype.transaction = function (...words) {
  if (words[1] === 'readwrite') window.durabilities.push(words[2]?.durability);
  return transaction.apply(this, words);
};
"""


def test_strictly(scripted: Scripted) -> None:
    """Each change is written to the disk at once, and the browser is asked once to clear nothing by itself."""
    player = scripted(NOTING)
    player.load(TOWERS)
    player.value('(window.asked === 0) || document.body.remove()')
    player.look('1<right>2', 'row 1, column 2, 2')
    assert player.value('window.asked') == 1
    assert set(player.value('window.durabilities')) == {'strict'}
