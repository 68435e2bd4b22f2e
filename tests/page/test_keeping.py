"""The things that the browser keeps: every game that was begun, the settings, and what was solved; in several tabs, as files, and where it keeps nothing."""

import datetime
import json

import pytest

from tests.harness import save_text
from tests.page.playing import LAPTOP, NOTHING_MORE, PHONE, THERE, TOWERS, UNEQUAL, Player, Scripted


@pytest.mark.always
def test_comes_back(player: Player) -> None:
    """After a reload, and on the next day, with its moves, hints and time; undo goes on where it was."""
    player.sit(TOWERS, LAPTOP)
    player.look('1<right>p23', 'row 1, column 2, empty, marks 2 3')
    player.driver.reload(THERE)
    player.is_called('row 1, column 2, empty, marks 2 3')
    player.look('{load}uuu', 'row 1, column 1, empty')
    player.look('r', 'row 1, column 1, 1')


def test_each_game_is_kept(player: Player) -> None:
    """Until it is deleted, after a question; the list shows how far each is, and goes on with one."""
    player.sit(TOWERS, PHONE)
    player.look('1', 'row 1, column 1, 1')
    player.begin('Unequal 3×3', id=UNEQUAL)
    player.begin('Towers 9×9', id='towers-9-hard-20261127')
    assert [game['id'].split(':')[0] for game in player.kept()] == ['9dh', '3', '3']
    player.look('o', is_shown='#games')
    listed = player.value('[...document.querySelectorAll("#games-list .pictured")].map((node) => node.textContent)')
    assert 'number 20261127' in listed[0] and 'Unequal 3×3 · 0 of 9' in listed[1] and 'Towers 3×3 · 1 of 9' in listed[2]
    player.driver.wait_for('[...document.querySelectorAll(".small-board")].map((node) => node.querySelectorAll("text").length).join().endsWith(",0,1")')
    player.look('{#games-list li:nth-child(3) .pictured}', 'row 1, column 1, 1..')
    player.look('o', is_shown='#games')
    player.look('{#games-list li:nth-child(2) [data-gone]}', answer_once='No', games='3', is_shown='#games')
    player.look('{#games-list li:nth-child(2) [data-gone]}', answer_once='Yes')
    player.has(2, '#games-list li')
    assert sorted(game['game'] for game in player.kept()) == ['towers', 'towers']


@pytest.mark.always
def test_two_tabs(player: Player) -> None:
    """The second sees the moves of the first, and neither loses one."""
    player.sit(TOWERS)
    first, other = player.driver.tab, player.driver.open()
    try:
        player.look('{load}1', 'row 1, column 1, 1')
        player.driver.turn_to(first)
        player.is_called('row 1, column 1, 1..')
        player.look('<right>2', 'row 1, column 2, 2')
        player.driver.turn_to(other)
        player.look('', 'row 1, column 2, 2..', moved='R0,0,1 R1,0,2')
    finally:
        player.driver.turn_to(other)
        # Its page keeps nothing any more: a browser may hear of that once the next case has begun.
        player.value(f'({NOTHING_MORE}, true)')
        player.driver.close_tab()
        player.driver.turn_to(first)


def test_behind(player: Player) -> None:
    """A tab that hasn't heard of another one's move does nothing, says so, and shows the move."""
    player.sit(TOWERS)
    player.look('1', 'row 1, column 1, 1')
    # Another tab has moved, and the browser hasn't said so yet when a key is pressed.
    text = json.dumps(save_text(3).decode())
    player.value(
        '((name) => { const game = JSON.parse(localStorage[name]);'
        f' localStorage[name] = JSON.stringify({{...game, save: {text}, turn: game.turn + 5}});'
        ' document.activeElement.dispatchEvent(new KeyboardEvent("keydown", {key: "3", bubbles: true})); return true; })'
        '(Object.keys(localStorage).find((name) => name.startsWith("puzzles:game:")))'
    )
    player.look('', 'row 1, column 3, 3', told='Another tab has made a move in between', moved='R0,0,1 R1,0,2 R2,0,3')


#: Counts how often games are read and written as texts.
COUNTED = """
window.counts = {parse: 0, stringify: 0};
const {parse, stringify} = JSON, count = (kind, text) => { if (String(text).includes('SAVEFILE')) window.counts[kind]++; };
JSON.parse = (text, ...words) => { count('parse', text); return parse(text, ...words); };
JSON.stringify = (...words) => { const text = stringify(...words); count('stringify', text); return text; };
"""


def test_reads(scripted: Scripted) -> None:
    """A move reads its game once at most, and writes it once, since a long one takes a while."""
    player = scripted(COUNTED)
    player.load(TOWERS)
    player.look('1', 'row 1, column 1, 1')
    for number in '212':
        player.value('(window.counts.parse = window.counts.stringify = 0, true)')
        player.look(number, f'row 1, column 1, {number}')
        assert player.value('[window.counts.parse < 2, window.counts.stringify]') == [True, 1]


#: Notes whether the page asks for its store first, or its worker answers.
ORDERED = """
window.order = [];
const {get} = Object.getOwnPropertyDescriptor(window, "localStorage"), Plain = window.Worker;
Object.defineProperty(window, "localStorage", {get() { window.order.push("store"); return get.call(window); }});
window.Worker = class extends Plain {
  constructor(...words) { super(...words); this.addEventListener("message", () => window.order.push("worker")); }
};
"""


def test_worker_comes_first(scripted: Scripted) -> None:
    """The store is asked for after the worker has answered: to a page that asks at once a busy Chromium may give an empty one."""
    player = scripted(ORDERED)
    player.load(TOWERS)
    assert player.value('window.order.slice(0, 2)') == ['worker', 'store']


#: The browser refuses to keep anything; or it has no room left.
REFUSED = 'Object.defineProperty(window, "localStorage", {get() { throw new DOMException("", "SecurityError"); }});'
FULL = 'Storage.prototype.setItem = () => { throw new DOMException("", "QuotaExceededError"); };'

#: And it has no database for the page.
NO_DATABASE = 'IDBFactory.prototype.open = () => { throw new DOMException("", "UnknownError"); };'


@pytest.mark.parametrize('script, said', [(REFUSED, 'keeps nothing for this page'), (FULL, 'has no room left')], ids=['refused', 'full'])
def test_nothing_is_kept(scripted: Scripted, script: str, said: str) -> None:
    """It is said, and in the menu, too, and play goes on."""
    player = scripted(script + NO_DATABASE)
    player.load(TOWERS)
    player.look('', told=said)
    player.look('{Menu}', is_shown='#menu')
    assert said in player.text('#about')
    player.leaves('#menu')
    player.look('1<right>2u', 'row 1, column 1, 1', 'row 1, column 2, empty', told=said)
    player.begin('Unequal 3×3', id=UNEQUAL)
    player.press('o')
    player.has(2, '#games-list li')


def test_solved_days(player: Player) -> None:
    """Today's game, once solved, has its day in the calendar; its time is in the statistics, where that isn't switched off."""
    player.sit('unequal-3-trivial-5', PHONE)
    player.look('t', is_shown='#daily')
    player.look('{#daily-size = 3}{Today’s game}', called='Towers 3×3')
    today = datetime.date.today()
    player.look('i', reads=f'number {today:%Y%m%d}.', leaves='#page')
    solve_by_hints(player)
    player.look('', told='Solved')
    player.look('t', is_shown='#daily')
    assert player.value('document.querySelector("#daily-days .solved").ariaLabel').endswith(', solved')
    assert player.value('document.querySelector("#daily-days .solved").textContent') == str(today.day)
    player.leaves('#daily')
    player.look('{menu Statistics}', is_shown='#statistics')
    assert player.value('[...document.querySelectorAll("#statistics td")].map((node) => node.textContent)')[:2] == ['1', '0']
    player.leaves('#statistics')
    player.switch('Time and statistics')
    assert ':' not in player.text('#count')


def solve_by_hints(player: Player) -> None:
    for _ in range(9):
        if 'solved' in player.text('#count'):
            return
        before = player.text('#count').split(' of')[0]
        player.press('hhh')
        player.driver.wait_for(f'!document.querySelector("#count").textContent.startsWith({json.dumps(before)} + " of")')
