"""A browser that is killed at a random moment of steady play: what was seen half a second before is there when it begins again.

In a case of troubles the store is full meanwhile, the database is closed, is refused or drops what it has to write, the worker fails, and its player
goes elsewhere and Back. WebKit's driver keeps nothing beyond its end, so there the page is loaded again in place of a kill.

With `--kills N` each case kills so many browsers, one after the other with what the one before has kept, and `-s` shows what came of each:

    tests/run PUZZLES PUZZLES_JSON -n0 -s tests/page/test_killed.py --browsers=all --kills 60
"""

import random
import threading
import time
from collections import Counter
from pathlib import Path
from typing import Callable, Counter as Counts, Dict, List, NamedTuple, Optional, Union

import pytest

from tests.harness import HEAD, Browser, Room
from tests.harness.driver import Driver
from tests.harness.firefox import Firefox, firefox
from tests.harness.webkit import webkit
from tests.page.conftest import chosen
from tests.page.playing import THERE, Player
from tests.page.seen import at
from tests.page.test_unkept import FILL

#: A move that was seen so many seconds before the end has to last.
LASTS = 0.5

#: A browser is killed after so many seconds of play, at least and at most; a move comes after so many milliseconds.
PLAYS, PAUSES = (1.0, 9.0), (60, 500)

#: How many browsers each case kills, if `--kills` doesn't say.
KILLS = 2

#: One of so many moves is a new game.
NEW_GAMES = 12

#: One of so many moves comes after a trouble.
TROUBLED = 4

#: The next time that the page would write, the database has closed, without a word to it; and then it can't be opened twice. Or what is to be written
#: is undone. And a worker fails at what it is asked next.
CLOSED = """(() => {
  const {transaction} = IDBDatabase.prototype;
  IDBDatabase.prototype.transaction = function (...words) {
    IDBDatabase.prototype.transaction = transaction;
    this.close();
    return transaction.apply(this, words);
  };
})()"""
REFUSED = """(() => {
  const {open} = IDBFactory.prototype;
  let times = 2;
  IDBFactory.prototype.open = function (...words) {
    if (times-- <= 0) return open.apply(this, words);
    const request = {};
    setTimeout(() => request.onerror({}));
    return request;
  };
})()"""
UNDONE = """(() => {
  const {put} = IDBObjectStore.prototype;
  IDBObjectStore.prototype.put = function (...words) {
    IDBObjectStore.prototype.put = put;
    setTimeout(() => { try { this.transaction.abort(); } catch { /* It is written. */ } });
    return put.apply(this, words);
  };
})()"""
FAILING = """(() => {
  const {postMessage} = Worker.prototype;
  Worker.prototype.postMessage = function () {
    Worker.prototype.postMessage = postMessage;
    this.onerror({message: 'it failed'});
  };
})()"""

TROUBLES = {'full': f'{FILL}(0)', 'closed': CLOSED, 'refused': f'({CLOSED}, {REFUSED})', 'undone': UNDONE, 'failing': FAILING, 'back': ''}

#: There is room again.
ROOM = 'Object.keys(localStorage).filter((name) => name.startsWith("filler ")).forEach((name) => localStorage.removeItem(name))'

#: So many moves a long game has at first: a store may be written later, the more is to be written.
MOVES = 10_000


class Seen(NamedTuple):
    """When so many moves of a game were seen. It is named by its number; the long one has none."""

    when: float
    game: str
    moves: int


#: Those that can be killed.
BEGIN: Dict[str, Callable[[Room], Union[Browser, Firefox]]] = {'chromium': Browser, 'firefox': firefox}


def pytest_generate_tests(metafunc: pytest.Metafunc) -> None:
    """In those of the browsers that are asked for."""
    names = chosen(metafunc.config.getoption('--browsers'))
    metafunc.parametrize('name', names if metafunc.function is test_troubles else [name for name in names if name in BEGIN])


@pytest.mark.parametrize('is_long', [False, True], ids=['short', 'long'])
def test_killed(name: str, is_long: bool, page: Path, room: Room, request: pytest.FixtureRequest) -> None:
    play(Rounds(name, f'file://{page}', room, is_long), request)


def test_troubles(name: str, served: str, room: Room, request: pytest.FixtureRequest) -> None:
    rounds = Troubled(name, served, room, False)
    if name in BEGIN:
        play(rounds, request)
        return
    with webkit(room) as rounds.lasting:
        play(rounds, request)


def play(rounds: 'Rounds', request: pytest.FixtureRequest) -> None:
    for number in range(request.config.getoption('--kills') or KILLS):
        rounds.play_and_kill(random.Random(f'{rounds.name} {rounds.is_long} {number}'))
        rounds.look()
    print(rounds.told())
    assert rounds.lost == []


class Rounds:
    """One browser after the other, with one profile."""

    def __init__(self, name: str, address: str, room: Room, is_long: bool) -> None:
        self.name, self.address, self.room, self.is_long = name, address, room, is_long
        self.seen: List[Seen] = []
        self.killed: List[float] = []
        self.lost: List[str] = []
        #: The last new game that was asked for: the end may come before it is seen.
        self.asked = ''
        self.late = 0

    def play_and_kill(self, chance: random.Random) -> None:
        driver = BEGIN[self.name](self.room)
        player, before = Player(driver, self.address), len(self.killed)
        try:
            player.load()
            self.begin(player, chance)

            def kill_now() -> None:
                self.killed.append(time.monotonic())
                driver.kill()

            timer = threading.Timer(chance.uniform(*PLAYS), kill_now)
            timer.start()
            try:
                while True:
                    self.move(player, chance)
            except (AssertionError, OSError):
                # It has ended by the kill, and not by itself.
                assert len(self.killed) == before + 1
                timer.join()
        finally:
            driver.end()

    def begin(self, player: Player, chance: random.Random) -> None:
        """A new game, or on with the long one."""
        if not self.is_long:
            self.new_game(player, chance)
        elif not self.seen:
            moves = b''.join(b'MOVE    :6:R0,0,%d\n' % (1 + number % 2) for number in range(MOVES))
            player.drop(HEAD + b'NSTATES :5:%d\nSTATEPOS:5:%d\n' % (MOVES + 1, MOVES + 1) + moves)
            player.is_called('row 1, column 1, 2')
            self.see('', MOVES)
        else:
            player.look('', called='Towers 3×3')

    def new_game(self, player: Player, chance: random.Random) -> None:
        number = self.asked = str(chance.randrange(10**8))
        # Its board is another one. How it has begun isn't told while something hinders it from being kept.
        player.value(f'(document.querySelector("#board > *").dataset.isBefore = "", location.hash = "#towers-5-hard-{number}", true)')
        player.driver.wait_for('!document.querySelector("[data-is-before]")')
        player.driver.click(at(*player.value('document.querySelector("[aria-label$=empty]").dataset.place').split(',')))
        # On a busy machine a click may last as long as a long press, which turns to marks.
        if player.value('document.querySelector("#tools [data-do=marks]").getAttribute("aria-pressed") === "true"'):
            player.press('p')
        self.see(number, 0)

    def move(self, player: Player, chance: random.Random) -> None:
        last = self.seen[-1]
        if not self.is_long and chance.randrange(NEW_GAMES) == 0:
            self.new_game(player, chance)
            return
        number = 1 + last.moves % 2
        place = player.value('document.activeElement.dataset.place') or '0,0'
        player.press(str(number))
        player.driver.wait_for(f'document.querySelector(\'[data-place="{place}"]\').getAttribute("aria-label").includes(", {number}")')
        self.see(last.game, last.moves + 1)
        player.value(f'new Promise((done) => setTimeout(done, {chance.uniform(*PAUSES)}))')

    def see(self, game: str, moves: int) -> None:
        self.seen.append(Seen(time.monotonic(), game, moves))

    def look(self) -> None:
        """Begins again, and looks for what was seen."""
        driver = BEGIN[self.name](self.room)
        try:
            player = Player(driver, self.address)
            player.load()
            games = {kept['key']: ((kept['fair'] or {}).get('number', ''), kept['save'].count('\nMOVE ')) for kept in player.kept()}
            now = games[player.value('JSON.parse(localStorage["puzzles:settings"] ?? "{}").now ?? localStorage["puzzles:now"]')]
            self.compare(dict(games.values()), now[0])
        finally:
            driver.end()
        # The moves that were seen last go on from what is there.
        self.seen = [Seen(0.0, *now)] if self.is_long else []

    def compare(self, found: Dict[str, int], now: str) -> None:
        killed = self.killed[-1]
        lasting = [one for one in self.seen if one.when <= killed - LASTS]
        missing = [one for one in lasting if found.get(one.game, -1) < one.moves]
        self.late += sum(found.get(one.game, -1) < one.moves for one in self.seen) - len(missing)
        last = lasting[-1:] if lasting[-1:] and lasting[-1].game == self.seen[-1].game else []
        if last and now not in (last[0].game, self.asked):
            missing += last
        self.lost += [f'killed at {killed:.2f}: {one} is gone, there is {found.get(one.game)} and {now}' for one in missing]
        print(f'{self.name}, {len(self.killed)} killed: {len(self.seen)} seen, {len(lasting)} of them early, {len(missing)} lost', flush=True)

    def told(self) -> str:
        return f'{self.name}: {len(self.killed)} killed, {len(self.lost)} lost, and {self.late} of the last {LASTS} s'


class Troubled(Rounds):
    """The same with troubles. A browser that can't be killed lasts from the first to the last."""

    lasting: Optional[Driver] = None

    def __init__(self, name: str, address: str, room: Room, is_long: bool) -> None:
        super().__init__(name, address, room, is_long)
        self.troubles: Counts[str] = Counter()

    def play_and_kill(self, chance: random.Random) -> None:
        if self.lasting is None:
            super().play_and_kill(chance)
            return
        player, end = Player(self.lasting, self.address), time.monotonic() + chance.uniform(*PLAYS)
        player.load()
        self.begin(player, chance)
        while time.monotonic() < end:
            self.move(player, chance)
        self.killed.append(time.monotonic() + LASTS)

    def move(self, player: Player, chance: random.Random) -> None:
        trouble = chance.choice(list(TROUBLES)) if chance.randrange(TROUBLED) == 0 else ''
        self.troubles[trouble] += 1
        if trouble == 'back':
            self.back(player, chance)
        elif trouble:
            player.value(f'({TROUBLES[trouble]}, true)')
        if trouble == 'failing':
            player.look(str(1 + self.seen[-1].moves % 2), told='It has begun anew')
        super().move(player, chance)

    def back(self, player: Player, chance: random.Random) -> None:
        """Elsewhere, and Back. A page that is loaded anew then begins a game: it may have come before its database."""
        player.value('(window.isTheSame = true)')
        player.driver.go(f'{self.address}elsewhere')
        player.driver.wait_for(f'!{THERE}')
        player.driver.back()
        player.driver.wait_for(f'document.readyState === "complete" && {THERE}')
        if not player.value('window.isTheSame ?? false'):
            self.new_game(player, chance)

    def look(self) -> None:
        """With room again, and once the database has come."""
        driver = self.lasting or BEGIN[self.name](self.room)
        try:
            player = Player(driver, self.address)
            player.load()
            player.value(f'({ROOM}, true)')
            player.load()
            for _ in range(200):
                games = {(kept['fair'] or {}).get('number', ''): kept['save'].count('\nMOVE ') for kept in player.kept()}
                if all(games.get(one.game, -1) >= one.moves for one in self.seen):
                    break
                player.value('new Promise((done) => setTimeout(done, 100))')
            self.compare(games, self.seen[-1].game)
        finally:
            if driver is not self.lasting:
                driver.end()
        self.seen = []

    def told(self) -> str:
        return f'{super().told()}; {dict(self.troubles)}'
