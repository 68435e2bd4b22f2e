"""Sheets for a class, made on the page alone: they are those of puzzles-sheet, they come onto paper whole, and the game goes on meanwhile."""

import os
import re
from typing import Dict, List, Mapping, Tuple

import pytest

from tests.harness import Browser, Room
from tests.harness.firefox import Firefox
from tests.page.playing import LAPTOP, PHONE, SMALL, TOWERS, UNEQUAL, Player, Scripted
from tests.sheet.making import Maker, content
from tests.sheet.printing import need_tools, said

#: As high as what is touched has to be, in points of a screen.
FINGER = 44

NAMES = [f'Pupil {number}' for number in range(1, 24)] + ['李小龙', 'שלום']

#: The sheets are shown, with all their pages.
MADE = '!document.querySelector("#made").hidden && !document.querySelector("#made-print").hidden'

#: Whether what is shown is wider than the window.
WIDE = 'Math.max(0, document.documentElement.scrollWidth - innerWidth, ...[...document.querySelectorAll("dialog[open]")].map((it) => it.scrollWidth - it.clientWidth))'


def opened(player: Player, values: Mapping[str, str], link: str = TOWERS, size: Tuple[int, int] = LAPTOP) -> None:
    """The dialog, with what is chosen and written in it."""
    player.sit(link, size)
    player.look('{menu Print sheets for a class}', is_shown='#sheet')
    for name, value in {'paper': 'a4', 'series': '7', **values}.items():
        player.write(f'#sheet-{name}', value)


def made(player: Player, values: Mapping[str, str], link: str = TOWERS) -> str:
    """The message on sheets that are made so."""
    opened(player, values, link)
    player.look('{Make them}', js=MADE)
    return player.text('#made-told')


@pytest.mark.always
def test_class(player: Player, room: Room, objects: str) -> None:
    """25 names by what is on the page alone. The file is that of the command, byte for byte."""
    told = made(player, {'names': '\n'.join(NAMES), 'heading': 'Class 4b'})
    assert told.endswith(': pages, 25 with puzzles, 5 with answers.'), told
    room.put('names', content(NAMES))
    page = Maker(objects, room).page(['towers', '--names', 'names', '--count', '4', '--title', 'Class 4b', '--series', '7'])
    assert player.caught('{Save as a file}').decode() == page
    player.look('{Change}', is_shown='#sheet')
    assert player.value('document.querySelector("#sheet-heading").value') == 'Class 4b'


@pytest.mark.always
def test_printed(player: Player, room: Room) -> None:
    """As many pages as are told, and each has its foot. The driver of WebKit prints nothing; tests/sheet prints the file there."""
    need_tools()
    told = made(player, {'names': '\n'.join(NAMES[:7]), 'count': '7', 'steps': 'first'}, UNEQUAL)
    counts = list(map(int, re.findall(r'(\d+) with (?:puzzles|answers|steps)', told)))
    assert len(counts) == 3 and counts[0] == 14, told
    if not isinstance(player.driver, (Browser, Firefox)):
        return
    room.put('page.pdf', player.driver.printed())
    texts = said('pdftotext', os.path.join(room.path, 'page.pdf'), '-').split('\f')[:-1]
    assert len(texts) == sum(counts)
    assert not [number for number, text in enumerate(texts, 1) if f'{told.split(":")[0]}, series 7' not in text]


@pytest.mark.always
def test_beside(player: Player) -> None:
    """Stop leaves all as it was; the game is the same after its sheets, and takes no key while they are shown."""
    opened(player, {'count': '200', 'to': '9', 'steps': 'all'})
    player.look('{Make them}{Stop}', js='document.querySelector("#sheet-stop").hidden && document.querySelector("#sheet-told").textContent')
    assert 'stopped' in player.text('#sheet-told').lower()
    player.leaves('#sheet')
    player.look('{0,0}1', 'row 1, column 1, 1..')
    player.look('{menu Print sheets for a class}{#sheet-count = 2}{#sheet-to = 5}{#sheet-steps = }{Make them}', js=MADE)
    player.value('(document.activeElement.blur(), true)')
    player.look('3u{Close}', 'row 1, column 1, 1..')


def test_keys(player: Player) -> None:
    """Enter in a field makes them, under their own title. Escape leaves them, wherever the focus is, and the board has it then."""
    opened(player, {'heading': 'Class 4b'})
    player.value('(document.querySelector("#sheet-heading").focus(), true)')
    player.look('<enter>', js=f'{MADE} && document.title === "Class 4b"')
    player.value('(document.activeElement.blur(), true)')
    player.look('<escape>', js='document.querySelector("#made").hidden && document.activeElement.dataset.place && document.title === "Towers 3×3"')


#: Notes what is told, with whether a screen reader says it.
HEARD = """(["sheet-told", "made-told"].map((id) => document.getElementById(id)).forEach((node) => new MutationObserver(() => {
  (window.heard ??= []).push([node.getAttribute("aria-live"), node.textContent]);
}).observe(node, {childList: true, attributes: true})), true)"""


def test_readers(player: Player) -> None:
    """A screen reader says how it begins and how it ends, and no number between."""
    opened(player, {'names': 'Anna\nBen', 'steps': 'first'})
    player.value(HEARD)
    player.look('{Make them}', js=MADE)
    heard = player.value('window.heard')
    aloud = [text for live, text in heard if live != 'off' and text]
    assert aloud[0] == 'Puzzle 0 of 8' and aloud[1:] == [player.text('#made-told')]
    assert {text for live, text in heard if live == 'off'} >= {'Puzzle 8 of 8', 'Steps of puzzle 8 of 8', 'Page 5 of 5'}


#: Languages of a browser, and their country's paper.
LANGUAGES = [('en-US', 'letter'), ('en-GB', 'a4'), ('es-GT', 'letter'), ('zh-Hant-TW', 'a4'), ('ca', 'a4')]


@pytest.mark.parametrize(('language', 'paper'), LANGUAGES)
def test_country(scripted: Scripted, language: str, paper: str) -> None:
    player = scripted(f'Object.defineProperty(navigator, "language", {{get: () => "{language}"}})')
    player.sit(TOWERS, LAPTOP)
    player.look('{menu Print sheets for a class}', is_shown='#sheet')
    assert player.value('document.querySelector("#sheet-paper").value') == paper


#: The text that is written, and how it is refused.
BAD: List[Tuple[Dict[str, str], str]] = [
    ({'from': '7', 'to': '5'}, 'The first size is greater than the last one.'),
    ({'series': 'today'}, 'The series is a number below 1,000,000,000,000.'),
    ({'series': '1000000000000'}, 'The series is a number below 1,000,000,000,000.'),
    ({'count': '0'}, 'Choose 1 to 200 puzzles.'),
    ({'count': '1.5'}, 'Choose 1 to 200 puzzles.'),
    ({'names': 'A\n' * 500}, '500 names with 4 puzzles each are 2000 puzzles. 400 have room at once.'),
    ({'names': 'A\n' * 500, 'count': '1'}, '500 names with a puzzle each are 500 puzzles. 400 have room at once.'),
    ({'answers': 'none', 'steps': 'first'}, 'Steps go with answers.'),
    ({'heading': 'A' * 1000}, 'The title is too long: it may take 40 lines, and 6 have room.'),
    ({'from': '9', 'to': '9', 'count': '12', 'per': '12'}, 'With 12 on a page the squares would be smaller than 7 mm; 6 have room.'),
]


@pytest.mark.parametrize(('values', 'told'), BAD, ids=[told for _, told in BAD])
def test_bad(player: Player, values: Dict[str, str], told: str) -> None:
    """It is told, and all that was written stays."""
    opened(player, values)
    player.look('{Make them}', js=f'document.querySelector("#sheet-told").textContent === "{told}"')
    assert player.value('document.querySelector("#sheet").open')


def test_few(player: Player) -> None:
    """Fewer different puzzles than asked, a name that is too long, and names that are none."""
    told = made(player, {'names': f'Anna\n\n  \n{"x" * 300}\nBen', 'from': '3', 'to': '3', 'count': '6'})
    assert 'pages, 3 with puzzles, 1 with answers.' in told and 'stand on an earlier sheet, too' in told
    assert told.endswith('Name 2 is long: its end may be cut off.')


@pytest.mark.parametrize('size', [PHONE, SMALL], ids=['phone', 'small'])
def test_small(player: Player, size: Tuple[int, int]) -> None:
    """On a telephone nothing is wider than the window, and a box with its label has the height of a finger."""
    opened(player, {'names': 'Anna'}, size=size)
    assert player.value(WIDE) == 0
    if player.value('matchMedia("(pointer: coarse)").matches'):
        assert player.value('Math.min(...[...document.querySelectorAll("#sheet .box")].map((box) => box.getBoundingClientRect().height))') >= FINGER
    player.look('{Make them}', js=MADE)
    assert player.value(WIDE) == 0


def test_blocked(player: Player) -> None:
    """Where no print window opens it is told what else to do."""
    made(player, {})
    player.value('(window.print = () => undefined, true)')
    player.look('{Print}', js='document.querySelector("#made-told").textContent.startsWith("If no print window opens, save the sheets as a file")')
