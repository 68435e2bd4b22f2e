"""Very small windows, contrast in both lights, colours that the system forces, and paper."""

import json
from typing import List, Sequence, Tuple

import pytest

from tests.harness import Browser, Room
from tests.page.playing import PHONE, TOWERS, Player
from tests.page.seen import at
from tests.sheet.printing import need_tools, said

#: How much room is left of a button beside the widest word in it, at each side.
ROOM = """
[...document.querySelectorAll("#tools button")].filter((node) => node.getClientRects().length).map((node) => {
  const range = document.createRange()
  range.selectNodeContents(node)
  const [text, box] = [range, node].map((one) => one.getBoundingClientRect())
  return Math.min(text.left - box.left, box.right - text.right)
})
"""


@pytest.mark.parametrize('window', [(280, 568), (320, 200), (320, 568), (568, 320), (640, 360)], ids=str)
def test_room(piped: Player, window: Tuple[int, int]) -> None:
    """No word touches the edge of its button, and nothing of the head lies under another part of it."""
    piped.sit('towers-9-hard-5', window)
    assert min(piped.value(ROOM)) >= 3
    title, button, count = piped.value('["#title", "[data-do=new]", "#count"].map((name) => document.querySelector(name).getBoundingClientRect().toJSON())')
    assert title['right'] <= button['left'] and count['right'] <= button['left'] and count['height'] < 60
    assert piped.value('document.documentElement.scrollWidth') <= window[0]
    piped.look('{#offer}', counts='Card 1 of')
    assert min(piped.value(ROOM)) >= 3 and piped.value('document.documentElement.scrollWidth') <= window[0]


@pytest.mark.parametrize('window', [(280, 568), (320, 200), (360, 640), (640, 360)], ids=str)
def test_room_for_keep(piped: Player, window: Tuple[int, int]) -> None:
    """After the last step the button is seen whole, below its sentence, and nothing is wider than the window."""
    piped.sit('towers-9-hard-5', window)
    piped.look('H', is_shown='#walk')
    piped.look('{#steps li:last-child button}', is_shown='#keep')
    piped.settles()
    sentence, keep = piped.value('["#steps li:last-child", "#keep"].map((name) => document.querySelector(name).getBoundingClientRect().toJSON())')
    assert 0 <= sentence['top'] < sentence['bottom'] <= keep['top'] and keep['bottom'] < window[1] + 1
    assert 0 <= keep['left'] and keep['right'] <= window[0] and piped.value('document.documentElement.scrollWidth') <= window[0]


def test_paper(piped: Player, browser: Browser, room: Room) -> None:
    """The link stands where the time was, and nothing of a hint that is open; afterwards it is as it was."""
    piped.sit('towers-5-easy-7', PHONE)
    piped.press('mhh')
    piped.driver.wait_for('document.querySelector(".square .left")')
    before = piped.text('#count')
    browser.media('print')
    piped.value('dispatchEvent(new Event("beforeprint"))')
    assert piped.text('#count') == f'{before.rpartition(" ")[0]} #towers-5-easy-7'
    assert piped.value('document.querySelectorAll(".square .left, .struck, .rests, .light, .look rect").length') == 0
    assert piped.value('document.querySelectorAll(".square .mark").length') > 50
    piped.value('dispatchEvent(new Event("afterprint"))')
    browser.media()
    piped.driver.wait_for('document.querySelector(".square .left")')
    assert piped.text('#count').startswith(before[:10]) and ':' in piped.text('#count')
    # The browser itself tells of printing.
    need_tools()
    room.put('board.pdf', browser.printed())
    paper = said('pdftotext', f'{room.path}/board.pdf', '-')
    assert f'{before.rpartition(" ")[0]} #towers-5-easy-7' in paper and '0:0' not in paper
    assert piped.value('document.querySelectorAll(".square .left").length') > 0


#: Colours of what is read on a ground, and of what else has to be seen beside another, with the contrast that is owed.
CONTRASTS: List[Tuple[float, str, Sequence[str]]] = [
    (4.5, 'ink', ['paper', 'square', 'given', 'lane', 'given-lane', 'same', 'rests', 'struck', 'button']),
    (4.5, 'own', ['square', 'lane', 'same', 'rests', 'struck', 'button']),
    (4.5, 'left', ['square', 'rests', 'struck']),
    (4.5, 'soft', ['paper', 'square', 'lane', 'button']),
    (4.5, 'wrong', ['paper', 'wrong-tint']),
    (4.5, 'on-main', ['main']),
    (3.0, 'line', ['paper', 'square']),
    (3.0, 'frame', ['paper', 'square']),
    (3.0, 'chosen', ['paper', 'square', 'given', 'lane', 'same', 'rests', 'struck']),
    (3.0, 'hint', ['paper', 'square', 'given', 'rests']),
    (3.0, 'wrong', ['struck']),
]


@pytest.mark.always
@pytest.mark.parametrize('scheme', ['light', 'dark'])
def test_contrast(piped: Player, browser: Browser, scheme: str) -> None:
    piped.sit(TOWERS)
    browser.media(features={'prefers-color-scheme': scheme})
    names = sorted({name for _, colour, grounds in CONTRASTS for name in (colour, *grounds)})
    values = piped.value(f'{json.dumps(names)}.map(name => getComputedStyle(document.documentElement).getPropertyValue("--" + name).trim())')
    light = {name: luminance(value) for name, value in zip(names, values)}
    assert light['paper'] > 0.8 if scheme == 'light' else light['paper'] < 0.1
    found = [(colour, ground, contrast(light[colour], light[ground]), owed) for owed, colour, grounds in CONTRASTS for ground in grounds]
    assert [row for row in found if row[2] < row[3]] == []


#: Where the system forces its colours: an element with its colour, and its ground.
FORCED = [
    ('.square.wrong .number', 'fill', '.square.wrong rect', 'fill'),
    ('.clue.wrong text', 'fill', '.clue.wrong rect', 'fill'),
    ('[data-do=marks]', 'color', '[data-do=marks]', 'backgroundColor'),
    ('[data-do=undo]', 'color', '[data-do=undo]', 'backgroundColor'),
]


@pytest.mark.parametrize('scheme', ['light', 'dark'])
def test_forced_colours(piped: Player, browser: Browser, scheme: str) -> None:
    """A mistake is read on its mark, and a pressed button is another than the others. Equal numbers have a line, the light of a mark a ring, and row and
    column a ground.
    """
    piped.sit(TOWERS)
    browser.media(features={'forced-colors': 'active', 'prefers-color-scheme': scheme})
    piped.press('2<right>2p')
    piped.driver.wait_for('document.querySelector(".clue.wrong") && document.querySelector(".square.wrong") && document.querySelector("[data-do=marks]").ariaPressed === "true"')
    for one, colour, other, ground in FORCED:
        values = piped.value(f'[["{one}", "{colour}"], ["{other}", "{ground}"]].map(([what, name]) => getComputedStyle(document.querySelector(what))[name])')
        assert contrast(*map(luminance, values)) >= 4.5, (one, values)
    pressed, usual = piped.value('["marks", "undo"].map((name) => getComputedStyle(document.querySelector(`[data-do=${name}]`)).backgroundColor)')
    assert contrast(luminance(pressed), luminance(usual)) >= 3
    piped.press('p<down>2<right>p23<left>')
    piped.driver.wait_for('document.querySelectorAll(".square.same").length > 1 && document.querySelector(".light + .mark")')
    style = 'getComputedStyle(document.querySelector(`{}`)).{}'
    assert piped.value(style.format(f'{at(1, 1)} .number', 'textDecorationLine')) == 'underline'
    assert piped.value(style.format('.light', 'stroke')) not in ('none', piped.value(style.format('.square rect', 'fill')))
    lane, other = (piped.value(style.format(f'{at(x, 2)} rect', 'fill')) for x in (1, 0))
    assert lane != other
    piped.press('<down>')
    piped.driver.wait_for('!document.querySelector(".square.same, .light")')


def luminance(colour: str) -> float:
    """As the rules for the web define it, of a colour as a style sheet has it, or as a browser tells it."""
    if colour.startswith('rgb'):
        colour = ''.join(f'{int(part):02x}' for part in colour[colour.index('(') + 1 : -1].split(',')[:3])
    digits = colour.lstrip('#')
    digits = ''.join(2 * digit for digit in digits) if len(digits) == 3 else digits
    parts = [int(digits[at : at + 2], 16) / 255 for at in (0, 2, 4)]
    light: List[float] = [part / 12.92 if part <= 0.04045 else pow((part + 0.055) / 1.055, 2.4) for part in parts]
    return sum(weight * part for weight, part in zip((0.2126, 0.7152, 0.0722), light))


def contrast(one: float, other: float) -> float:
    return (max(one, other) + 0.05) / (min(one, other) + 0.05)
