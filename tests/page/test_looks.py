"""How the page looks and what it is to a person who doesn't see it: checks of our own, since none come with Debian, and pictures.

The checks are of names and roles, one tab stop in the board, the order of Tab, what is announced, sizes of what is pressed, and
that nothing has to be scrolled sideways. They don't try real readers of screens. All windows are tried with --browsers=all, otherwise a phone's alone.
"""

import base64
import json
import os
import re
from pathlib import Path
from typing import Any, Callable, Dict, List, NamedTuple, Tuple

import pytest

from playing.cards import CARDS
from playing.games import SIZES, stored
from tests.harness import BLANK, TOP, Browser, by_name
from tests.harness.noted import expect_noted
from tests.page.conftest import ALL
from tests.page.playing import LAPTOP, PHONE, SMALL, TOWERS, UNEQUAL, Player, Scripted

PICTURES = Path(__file__).resolve().parent / 'pictures'

#: The parts of the page that are seen, by their kind.
SEEN = '[...document.querySelectorAll("{}")].filter(node => node.getClientRects().length)'

#: Scripts by what they check: each gives a list of what is wrong.
CHECKS: Dict[str, str] = {
    'the language and the title': '[document.documentElement.lang === "en", document.title.length > 3].filter(good => !good)',
    'each ID once': '[...document.querySelectorAll("[id]")].map(node => node.id).filter((id, at, all) => all.indexOf(id) !== at)',
    'a name for what is pressed': SEEN.format('button, input, select')
    + '.filter(node => !(node.textContent.trim() || node.ariaLabel || node.labels?.[0]?.textContent.trim()'
    ' || document.getElementById(node.getAttribute("aria-labelledby"))?.textContent)).map(node => node.outerHTML)',
    'one tab stop in the board': '[[...document.querySelectorAll("#board [tabindex=\\"0\\"]")].length].filter(count => count !== 1)',
    'a name for each square': '[...document.querySelectorAll("[role=gridcell]")].filter(node => !/^(row \\d, column \\d, |(no clue|clue \\d) (above|below|left|right) )/'
    '.test(node.getAttribute("aria-label"))).map(node => node.outerHTML)',
    'squares in rows in a board': '[...document.querySelectorAll("[role=gridcell]")].filter(node => node.parentNode.getAttribute("role") !== "row"'
    ' || node.parentNode.parentNode.getAttribute("role") !== "grid").map(node => node.outerHTML)',
    'digits are not read twice': '[...document.querySelectorAll("#board text")].filter(node => node.getAttribute("aria-hidden") !== "true").map(node => node.outerHTML)',
    'two places where things are announced':
    '[[...document.querySelectorAll("[role=status]")].filter(one => !one.closest("dialog, [hidden]")).length].filter(count => count !== 2)',
    'names of dialogs': '[...document.querySelectorAll("dialog")].filter(node => !document.getElementById(node.getAttribute("aria-labelledby"))).map(node => node.id)',
    'groups with names': '[...document.querySelectorAll("[role=group], section")].filter(node => !node.ariaLabel).map(node => node.outerHTML)',
    'no width to scroll': '[document.documentElement.scrollWidth - innerWidth].filter(more => more > 0)',
    # Seven days of a week stand side by side, in the narrowest window too.
    'buttons for fingers': SEEN.format('button, select, input')
    + '.map(node => [node.getBoundingClientRect(), node]).filter(([box, node]) => box.width < (node.dataset.day ? 35 : 43.8) || box.height < 43.8)'
    + '.map(([box, node]) => [box.width, box.height, node.outerHTML])',
    'squares that can be met': SEEN.format('.square rect') + '.map(node => node.getBoundingClientRect().width).filter(width => width < 24)',
}

#: The windows in which they are made: a large one, a small one, one at which twice as much is seen in a small one, and others.
WINDOWS = [LAPTOP, PHONE, SMALL, (320, 480), (683, 384), (844, 390), (768, 1024), (3840, 2160)]

def pytest_generate_tests(metafunc: pytest.Metafunc) -> None:
    if 'window' in metafunc.fixturenames:
        is_all = metafunc.config.getoption('--browsers') == ALL
        metafunc.parametrize('window', WINDOWS if is_all else [PHONE], ids=str)


@pytest.mark.parametrize('game', ['towers', 'unequal'])
def test_checks(piped: Player, game: str, window: Tuple[int, int]) -> None:
    """On the board, at all sizes, and over it in each dialog; at the desk, and on the cards of the course."""
    piped.sit(f'{game}-9-easy-7', window)
    for size in SIZES:
        piped.value(f'(location.hash = "#{game}-{size}-easy-7", true)')
        piped.look('', called=f'{game.title()} {size}×{size}')
        assert wrong(piped) == [], size
    piped.look('mH', is_shown='#walk')
    assert wrong(piped) == []
    piped.look('{#steps li:last-child button}', is_shown='#keep')
    assert wrong(piped) == []
    piped.press('<escape>')
    for key, dialog in [('n', '#fresh'), ('o', '#games'), ('t', '#daily'), ('?', '#rules'), ('i', '#page'), (':', '#ask'), ('S', '#ask')]:
        piped.look(key, is_shown=dialog)
        assert wrong(piped) == [], dialog
        piped.leaves(dialog)
    piped.look('{menu Check or set a puzzle}', counts='0 given')
    assert wrong(piped) == []
    piped.look('{More}', is_shown='#desk-menu')
    assert wrong(piped) == []
    piped.look('{My game}', ruled='✓ Exactly one solution')
    piped.look('{Thin out}', is_shown='#thin')
    assert wrong(piped) == []
    piped.leaves('#thin')
    piped.look('E', is_gone='#verdict')
    piped.look('{Menu}', is_shown='#menu')
    assert wrong(piped) == []
    piped.look('{Learn}')
    for number, _ in enumerate(CARDS[game], 1):
        piped.look('', counts=f'Card {number} of')
        assert wrong(piped) == [], number
        piped.press('<enter>')


def wrong(player: Player) -> List[Any]:
    checks = ', '.join(f'[{json.dumps(name)}, {script}]' for name, script in CHECKS.items())
    return [(name, found) for name, found in player.value(f'[{checks}]') if found]


@pytest.mark.always
def test_tree(piped: Player, browser: Browser) -> None:
    """The names that the browser tells a reader of screens."""
    piped.sit(TOWERS)
    piped.look('p13<up>d', 'clue 3 above column 1, done')
    browser.ask('Accessibility.enable')
    nodes = browser.ask('Accessibility.getFullAXTree')['nodes']
    named = [(node['role']['value'], node.get('name', {}).get('value', '')) for node in nodes if not node['ignored']]
    assert named.count(('grid', 'Towers 3×3')) == 1
    assert [role for role, _ in named].count('row') == 4
    cells = [name for role, name in named if role == 'gridcell']
    assert cells[:3] == ['clue 3 above column 1, done', 'clue 3 left of row 1', 'row 1, column 1, empty, marks 1 3'] and len(cells) == 11
    assert [name for role, name in named if role == 'button'][:5] == ['New', 'Menu', '1, 3 left', '2, 3 left', '3, 3 left']
    assert [role for role, _ in named].count('status') == 2


def test_tab(scripted: Scripted) -> None:
    """The head, the board, the numbers, the buttons; and an arrow leaves the one tab stop of the board where it goes."""
    piped = scripted(ASKED)
    piped.sit('unequal:4!7', LAPTOP)
    # The second time nothing is offered between the two, not even to stop what the page asks by itself.
    piped.load('unequal:4!7')
    answered(piped)
    piped.press('<down><tab>')
    assert piped.value('document.activeElement.dataset.number') == '1'
    piped.press('<tab>' * 4)
    assert piped.value('document.activeElement.textContent') == 'Marks'
    # On a button keys are the button's.
    piped.look('3<enter>', told='Numbers are pencil marks now.')
    piped.value('(document.querySelector("[data-do=menu]").focus(), true)')
    piped.look('<tab>', chose='0,1')


def test_announced(piped: Player) -> None:
    """In the shortest form."""
    piped.sit('unequal:3:0,0L,0,0U,0,0,0U,0,0,')
    assert piped.text('#said').endswith('0 given, 3 clues')
    for press, said in [('1', '1'), ('p', '1'), ('l', '1'), ('2', 'empty, marks 2'), ('m', '8 squares changed'), ('u', '8 squares changed')]:
        piped.press(press)
        piped.driver.wait_for(f'document.querySelector("#said").textContent === {json.dumps(said)}')


def test_messages_cover_nothing(scripted: Scripted) -> None:
    """A sentence stands beside the buttons, fades, and a long one moves none of them."""
    piped = scripted(ASKED)
    piped.sit('towers:5!7', PHONE)
    answered(piped)
    tops = '[...document.querySelectorAll("#play button")].map((node) => node.getBoundingClientRect().top)'
    before = piped.value(tops)
    piped.look('hh', told='Clue 4 left of row 2')
    assert piped.value(tops) == before
    low, high = piped.value('[document.querySelector("#message").getBoundingClientRect().bottom, document.querySelector("#pad").getBoundingClientRect().top]')
    assert low <= high
    piped.press('p')
    piped.driver.wait_for('document.querySelector("#message").classList.contains("fading")')


#: How well a line is told from what is behind it, as WCAG counts it: 3 at least.
CONTRAST = """((selector, behind) => {
  const bright = (colour) => {
    const [r, g, b] = colour.match(/[0-9.]+/g).slice(0, 3).map((part) => part / 255).map((part) => (part <= 0.04045 ? part / 12.92 : ((part + 0.055) / 1.055) ** 2.4));
    return 0.2126 * r + 0.7152 * g + 0.0722 * b + 0.05;
  };
  const nodes = [...document.querySelectorAll(selector)], line = bright(getComputedStyle(nodes[0]).stroke), ground = bright(behind(nodes[0]));
  return Math.max(line, ground) / Math.min(line, ground);
})"""


@pytest.mark.parametrize('features', [{}, {'prefers-color-scheme': 'dark'}, {'forced-colors': 'active'}], ids=['light', 'dark', 'forced'])
def test_contrast(piped: Player, browser: Browser, features: Dict[str, str]) -> None:
    """A number that a step strikes, and a possible mistake, are seen well, in whatever colours. It isn't red: that unit/red.test.mjs tries."""
    piped.sit('towers:5!7', LAPTOP)
    browser.media('', features)
    piped.look('hh', told='Clue 4 left of row 2')
    assert piped.value(f'{CONTRAST}(".cross", (node) => getComputedStyle(node.parentNode.querySelector("rect")).fill)') >= 3
    setting(piped)
    assert piped.value(f'{CONTRAST}(".blamed", () => getComputedStyle(document.documentElement).backgroundColor)') >= 3


class Picture(NamedTuple):
    """A state of the page: its link, the window, what is done, and what the page is shown on; and the folder, if it is a document's."""

    name: str
    link: str
    window: Tuple[int, int]
    act: Callable[[Player], object] = lambda player: None
    features: Dict[str, str] = {}
    kind: str = ''
    folder: Path = PICTURES


#: Before the page: how many questions its workers haven't answered yet.
ASKED = """
window.asked = 0;
const Plain = window.Worker;
window.Worker = class extends Plain {
  constructor(...words) { super(...words); this.addEventListener('message', () => { window.asked--; }); }
  postMessage(...words) { window.asked++; super.postMessage(...words); }
};
"""


def play(keys: str) -> Callable[[Player], object]:
    """Presses keys, each once what came before it is answered and seen."""

    def act(player: Player) -> None:
        for key in re.findall('<[a-z]+>|.', keys):
            player.press(key)
            answered(player)

    return act


def answered(player: Player) -> None:
    player.driver.wait_for('window.asked === 0')
    player.settles()


def paper(player: Player) -> None:
    """As a browser tells of it before it prints: with a hint open, of which nothing is seen then."""
    play('m1h')(player)
    player.look('', told='Look at')
    player.value('dispatchEvent(new Event("beforeprint"))')


def learn(keys: str = '') -> Callable[[Player], object]:
    """Begins the course, and presses keys there."""

    def act(player: Player) -> None:
        player.look('mu', is_gone='#offer')
        player.look('{menu Learn}', counts='Card 1 of')
        play(keys)(player)

    return act


def setting(player: Player) -> None:
    """At the setter's desk, with two clues that contradict each other."""
    player.look('{menu Check or set a puzzle}', counts='0 clues')
    player.press('<up>1<right>1')
    player.has(2, '.blamed')


def number_first(player: Player) -> None:
    player.look('{switch Number first, then squares}m{2}{0,0}', 'row 1, column 1, 2..')


def puzzle(game: str, size: int) -> str:
    return f'{game}:{stored(game, size, "x")[0]}'


DARK, FORCED_COLOURS = {'prefers-color-scheme': 'dark'}, {'forced-colors': 'active'}

ALL_PICTURES: List[Picture] = [
    Picture('towers-5', puzzle('towers', 5), LAPTOP, play('m1<right>1<down>p12p<left><left>d<right>')),
    Picture('unequal-6-dark', puzzle('unequal', 6), LAPTOP, play('m3<right>1<right><right>6<down>6'), DARK),
    Picture('towers-9-phone', puzzle('towers', 9), PHONE, play('m3')),
    Picture('unequal-9-phone-dark', puzzle('unequal', 9), PHONE, play('m3<down>'), DARK),
    Picture('towers-4-small', puzzle('towers', 4), SMALL, play('4<down>4')),
    Picture('forced-colours', UNEQUAL, (800, 480), play('3<right>3p'), FORCED_COLOURS),
    Picture('hint-look', 'towers:5!7', PHONE, lambda player: player.look('h', told='Look at clue 4')),
    Picture('page', 'towers:5!7', LAPTOP, lambda player: player.look('hh', told='So r2c1 is 1'), folder=TOP / 'docs'),
    Picture('why-phone', 'unequal:5!7', PHONE, play('H<down>')),
    Picture('new-game', TOWERS, SMALL, lambda player: player.look('n', is_shown='#fresh')),
    Picture('menu', UNEQUAL, PHONE, lambda player: player.look('{Menu}')),
    Picture('rules', TOWERS, PHONE, lambda player: player.look('?', is_shown='#rules')),
    Picture('filled-in-zoomed', puzzle('towers', 6), (683, 384), lambda player: player.look('S', answer='Yes', told='Filled in')),
    Picture('number-first', 'unequal-5-easy-7', PHONE, number_first),
    Picture('course', UNEQUAL, SMALL, learn('1')),
    Picture('desk', TOWERS, PHONE, setting),
    Picture('desk-forced', TOWERS, (800, 480), setting, FORCED_COLOURS),
    Picture('course-forced', TOWERS, (800, 480), learn(), FORCED_COLOURS),
    Picture('print', puzzle('towers', 6), (560, 700), paper, {}, 'print'),
]

#: The part of its points in which a picture may be otherwise, since fonts are.
MOST_OTHER = 0.06

#: All that is to be read, and the colours of the board.
TO_BE_SEEN = """
[document.body.innerText, ...new Set([...document.querySelectorAll('#board svg *')].map(node => getComputedStyle(node)).map(({fill, stroke}) => fill + stroke).sort())]
"""

#: The part of the points in which two pictures differ: all where their sizes do.
COMPARE = """
(async () => {
  const points = async (data) => {
    const image = await createImageBitmap(await (await fetch('data:image/png;base64,' + data)).blob())
    const canvas = new OffscreenCanvas(image.width, image.height), context = canvas.getContext('2d')
    context.drawImage(image, 0, 0)
    return context.getImageData(0, 0, image.width, image.height)
  }
  const [one, other] = [await points(ONE), await points(OTHER)]
  if (one.width !== other.width || one.height !== other.height) return 1
  let count = 0
  for (let at = 0; at < one.data.length; at += 4) if ([0, 1, 2].some(part => Math.abs(one.data[at + part] - other.data[at + part]) > 48)) count++
  return count * 4 / one.data.length
})()
"""


@pytest.mark.parametrize('picture', ALL_PICTURES, ids=by_name)
def test_picture(scripted: Scripted, browser: Browser, picture: Picture) -> None:
    """With PICTURES=new in the environment they are stored anew."""
    player = scripted(ASKED)
    player.sit(picture.link, picture.window)
    # The grade by our steps comes late.
    answered(player)
    # The time stands in the head.
    player.switch('Time and statistics')
    browser.media(picture.kind, picture.features)
    picture.act(player)
    answered(player)
    shown = browser.picture()
    path = picture.folder / f'{picture.name}.png'
    if picture.folder is not PICTURES:
        expect_noted(path, ' '.join(' '.join(player.value(TO_BE_SEEN)).split()), lambda: shown)
    elif os.environ.get('PICTURES') == 'new':
        path.write_bytes(shown)
    browser.go(BLANK)
    data = [json.dumps(base64.b64encode(content).decode()) for content in (shown, path.read_bytes())]
    assert browser.value(COMPARE.replace('ONE', data[0]).replace('OTHER', data[1])) < MOST_OTHER
