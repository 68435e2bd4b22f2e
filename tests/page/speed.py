"""How fast the page is in Chromium: python3 -m tests.page.speed FILE. It prints a line for each kind, with the median, the 95th and the 99th per cent."""

import itertools
import statistics
import sys
import time
from pathlib import Path
from typing import Callable, Iterator, List

from tests.harness import HEAD, TOP, Browser, Room
from tests.page.playing import PHONE, Player
from tests.page.seen import at

#: Set before the page begins: when its first board was painted, counted from the navigation; and how long after a finger was lifted the board had
#: changed, or the verdict of the setter's desk.
WATCH = """
const painted = (then) => requestAnimationFrame(() => { const {port1, port2} = new MessageChannel(); port1.onmessage = then; port2.postMessage(0); });
new MutationObserver((_, watch) => {
  if (!document.querySelector('[data-place]')) return;
  watch.disconnect();
  painted(() => { window.firstBoard = performance.now(); });
}).observe(document, {childList: true, subtree: true});
addEventListener('touchend', ({timeStamp}) => {
  window.last = 0;
  new MutationObserver((_, watch) => { watch.disconnect(); painted(() => { window.last = performance.now() - timeStamp; }); })
    .observe(document.querySelector('#board'), {attributes: true, childList: true, subtree: true});
  window.ruled = 0;
  new MutationObserver((_, watch) => {
    if (!document.querySelector('#ruling').textContent) return;
    watch.disconnect(); painted(() => { window.ruled = performance.now() - timeStamp; });
  }).observe(document.querySelector('#ruling'), {childList: true});
}, {capture: true});
"""

#: From a change of the address to the game of it, and from a hint that is asked for to its first sentence.
NEW_GAME = """new Promise((done) => {{
  const begin = performance.now();
  new MutationObserver((_, watch) => {{ watch.disconnect(); done(performance.now() - begin); }}).observe(document.querySelector('#board'), {{childList: true}});
  location.hash = '#{link}';
}})"""
HINT = """new Promise((done) => {
  const begin = performance.now();
  new MutationObserver((_, watch) => {
    if (!/^Look|^Only/.test(document.querySelector('#told').textContent)) return;
    watch.disconnect(); done(performance.now() - begin);
  }).observe(document.querySelector('#told'), {childList: true});
  document.querySelector('[data-do=hint]').click();
})"""

#: From a key, which puts another number into the first square, to its paint.
KEY = """new Promise((done) => {
  const begin = performance.now(), node = document.querySelector('[data-place="0,0"]'), key = node.getAttribute('aria-label').includes(', 1') ? '2' : '1';
  const watch = new MutationObserver(() => { watch.disconnect(); painted(() => done(performance.now() - begin)); });
  watch.observe(node, {attributes: true, attributeFilter: ['aria-label']});
  node.dispatchEvent(new KeyboardEvent('keydown', {key, bubbles: true}));
})"""

RUNS = 20

#: How many states a long game has.
STATES = (100, 10_000)

#: Setters' sessions, as bench/time_answers has them, and so many changes of them at most.
CHANGES, MOST_CHANGES = TOP / 'bench' / 'changes.txt', 1000


def told(name: str, times: List[float]) -> None:
    ordered = sorted(times)
    late, latest = (ordered[int(len(ordered) * part) - 1] for part in (0.95, 0.99))
    print(f'{name}: median {statistics.median(ordered):.1f} ms, 95 % {late:.1f} ms, 99 % {latest:.1f} ms, of {len(ordered)}')


def times(count: int, one: Callable[[int], float]) -> List[float]:
    return [one(number) for number in range(count)]


def verdicts(player: Player) -> Iterator[float]:
    """From each tap that changes a puzzle on the desk to its verdict."""
    player.load('towers-4-easy-7')
    player.menu('Check or set a puzzle')
    for line in CHANGES.read_text(encoding='ascii').splitlines():
        head, _, changes = line.partition(': ')
        game, size = head.split()
        kind = 'clue' if game == 'towers' else 'sign'
        player.write('#desk-game', game)
        player.look('', counts=kind)
        player.write('#desk-size', size)
        player.look('', counts=f'0 {kind}s · 0 given')
        player.driver.wait_for(f'document.querySelectorAll(".square").length === {int(size) ** 2} && document.querySelector("#ruling").textContent')
        for change in changes.split():
            yield from taps(player, int(size), [int(word) for word in change.split(',')])


def taps(player: Player, size: int, words: List[int]) -> Iterator[float]:
    """One for a clue or a given; one or two for a sign, whose second square is the greater one."""
    if len(words) == 3:
        player.driver.tap(at(words[0], words[1]))
        wanted = [f'[data-number="{words[2]}"]']
    else:
        greater, less = words[1] * size + words[0], words[3] * size + words[2]
        wanted = [f'[data-sign="{min(greater, less)}-{max(greater, less)}"]'] * (1 if greater < less else 2)
    for selector in wanted:
        player.settles()
        player.driver.tap(selector)
        player.driver.wait_for('window.ruled')
        yield float(player.value('window.ruled'))


def keys(player: Player, states: int) -> List[float]:
    """Each in a game of so many states."""
    player.load('towers-4-easy-7')
    moves = b''.join(b'MOVE    :6:R0,0,%d\n' % (1 + number % 2) for number in range(states))
    player.drop(HEAD + b'NSTATES :%d:%d\nSTATEPOS:%d:%d\n' % (*[len(str(states + 1)), states + 1] * 2,) + moves, called='Towers 3×3')
    player.driver.click(at(0, 0))
    return times(RUNS, lambda _: float(player.value(f'new Promise((done) => setTimeout(done, 100)).then(() => {KEY})')))


def main(page: str) -> None:
    with Room() as room, Browser(room) as browser:
        browser.ask('Page.addScriptToEvaluateOnNewDocument', source=WATCH)
        player = Player(browser, f'file://{page}')
        player.sit('', PHONE)

        def load(_: int) -> float:
            player.load('towers-5-easy-7')
            player.driver.wait_for('window.firstBoard')
            return float(player.value('window.firstBoard'))

        def tap(number: int) -> float:
            player.driver.tap(at(number % 9, number // 9 % 9))
            player.settles()
            player.value('(window.last = 0, true)')
            player.driver.tap(f'[data-number="{1 + number % 9}"]')
            player.driver.wait_for('window.last || document.querySelector("#told").textContent')
            time.sleep(0.02)
            return float(player.value('window.last'))

        def hint(_: int) -> float:
            taken = float(player.value(HINT))
            player.press('hh')
            player.driver.wait_for('!document.querySelector("#told").textContent')
            return taken

        told('file to playable board', times(RUNS, load))
        for link in ('towers-9-easy', 'towers-9-hard', 'unequal-9-trivial', 'unequal-9-easy', 'unequal-9-tricky'):
            told(f'new game {link}', times(RUNS, lambda number, kind=link: float(player.value(NEW_GAME.format(link=f'{kind}-{1000 + number}')))))  # type: ignore[misc]
        player.load('unequal-9-tricky-7')
        told('tap to painted square', [found for found in times(5 * RUNS, tap) if found])
        player.load('towers-9-hard-7')
        told('hint', times(RUNS, hint))
        for states in STATES:
            told(f'key to painted square, {states} states', keys(player, states))
        told('verdict', list(itertools.islice(verdicts(player), MOST_CHANGES)))


if __name__ == '__main__':
    main(str(Path(sys.argv[1]).resolve()))
