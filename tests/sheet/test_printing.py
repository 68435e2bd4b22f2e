"""The page in a browser, and what it prints: so many pages, nothing cut, nothing over another thing, all IDs whole."""

import os
import re
import shutil
import subprocess
import sys
from pathlib import Path
from typing import Iterator, List, NamedTuple, Sequence, Tuple

import pytest

from sheet.pdf import BROWSERS, OTHERWISE
from tests.harness import Browser, Room, Skip, by_words, in_the_gate
from tests.harness.webkit import on_screen
from tests.second_implementation.seeded import full_puzzle
from tests.sheet.making import Maker, content, stored
from tests.sheet.printing import MEASURE, need_tools, printed, said, shown

#: The script that prints by the engine of Safari.
WEBKIT = Path(__file__).with_name('webkit_print.py')

#: In points of a printer.
PAPERS = {'a4': (595, 842), 'letter': (612, 792)}


class Sheet(NamedTuple):
    """The words, and how many pages the puzzles, the answers and the steps take."""

    words: Sequence[str]
    puzzles: Sequence[str]
    pages: int
    answers: int
    steps: int = 0


def sixes(caption: str = '') -> List[str]:
    return [*stored('towers', 6, 6), *(f'{id} {caption}' for id in stored('unequal', 6, 6))]


def nines() -> List[str]:
    return [*stored('towers', 9, 4), *stored('unequal', 9, 4)]


def full() -> List[str]:
    """Puzzles of size 9 with the longest IDs: all that can be given is, and each has a long caption."""
    square = tuple((x + y) % 9 + 1 for y in range(9) for x in range(9))
    puzzles = [full_puzzle(game, 9, square)[0] for game in ('towers', 'unequal')]
    return [f'9:{puzzle.description()} {"with all that can be given, and a long caption " * 5}' for puzzle in puzzles]


def sheets(paper: str) -> Iterator[Sheet]:
    """A page has as many puzzles as is asked for; otherwise six, and of size 9 four of Towers and two of Unequal."""
    yield Sheet(['--per-page', '12', '--paper', paper], stored('towers', 5, 12), 1, 1)
    yield Sheet(['--per-page', '9', '--ids-below'], sixes('for Anna'), 2, 1)
    yield Sheet(['--per-page', '5'], sixes('for Anna'), 3, 1)
    yield Sheet(['--per-page', '4', '--ids-below', '--words'], sixes('for Anna and Bert, who have done all the others ' * 5), 3, 1)
    yield Sheet(['--per-page', '2', '--ids-below'], sixes('for Anna')[4:9], 3, 1)
    yield Sheet(['--per-page', '1', '--answers', 'none', '--words'], sixes('for Anna')[5:7], 2, 0)
    yield Sheet([], [f'{id} for Anna' for id in nines()], 3, 1)
    yield Sheet(['--ids-below'], stored('unequal', 9, 4), 2, 1)
    yield Sheet(['--title', 'A title that is longer than a line ' * 3], sixes(), 2, 1)
    yield Sheet(['--large', '--ids-below', '--words'], [sixes()[0], sixes()[-1], *full()], 4, 1)
    yield Sheet(['--large', '--example', '--title', 'A title that is longer than a line ' * 2], sixes()[:2], 7 if paper == 'a4' else 8, 1)
    yield Sheet(['--example'], sixes(), 6, 1)
    yield Sheet(['--answers', 'only', '--per-page', '12'], nines(), 0, 1)
    yield Sheet(['--answers', 'only', '--steps'], nines(), 0, 2, 2)
    yield Sheet(['--answers', 'only', '--steps', '--large'], nines()[2:6], 0, 1, 5)


def all_sheets() -> List[Tuple[str, Sheet]]:
    return [(size, sheet) for size in PAPERS for sheet in sheets(size)]


@pytest.mark.parametrize(('size', 'sheet'), in_the_gate(all_sheets(), lambda row: row not in all_sheets()[::7]))
def test_pages(paper: Browser, maker: Maker, room: Room, size: str, sheet: Sheet) -> None:
    ended = maker.run(['--ids', '-', '--paper', size, *sheet.words], content(sheet.puzzles))
    assert ended.status == 0, ended.error
    found = printed(paper, room, ended.output.decode())
    answers = sheet.pages + sheet.answers
    total = answers + sheet.steps
    assert [len(found.texts), len(found.sticks_out)] == [total, total], sheet.words
    assert (round(found.paper[0]), round(found.paper[1])) == PAPERS[size]
    assert not any(map(any, found.sticks_out)), sheet.words
    assert found.is_free, sheet.words
    code = re.search(r'Sheet ([0-9A-F]{4})\b', found.texts[0])
    assert code
    for number in range(1, total + 1):
        assert all(number in found.pages_with(text) for text in (f'Sheet{code[1]}', f'{number}/{total}'))
        # On a class sheet no words tell how the answers are had.
        assert (number in found.pages_with('puzzles-sheet--ids-')) == ('--words' in sheet.words)
    assert found.pages_with('Answers:') == list(range(sheet.pages + 1, answers + 1))
    assert found.pages_with('Steps:') == list(range(answers + 1, total + 1))
    for number, line in enumerate(sheet.puzzles, 1):
        # Where it is asked for the ID is whole, and stands on one page, with the number of the puzzle.
        pages = found.pages_with(line.split()[0])
        assert len(pages) == (1 if '--ids-below' in sheet.words else 0), line
        of_number = found.pages_with(f'{code[1]}-{number}')
        assert set(pages) <= set(of_number) and len(of_number) >= (1 if sheet.pages else 0), line


#: Words of a sheet of Towers, its size, how many pages the answers take, and the side of their squares in mm: at least and at most, reckoned by hand.
ANSWERS = [
    # Four rows of 65 mm, of which a number and what is free take 10.
    (['--count', '12'], 5, 1, (8.8, 9.4)),
    # Six rows of 43 mm, with four each.
    (['--size', '6', '--count', '24'], 6, 1, (4.8, 5.2)),
    # Larger ones than those of 12 mm look childish.
    (['--size', '4', '--count', '4'], 4, 1, (11.8, 12.3)),
    # Three rows of 84 mm, of which 16 are no board.
    (['--count', '6', '--large'], 5, 1, (11, 11.5)),
    # No page has room for 16 with squares of 4.4 mm. On two there are three columns of 56.7 mm.
    (['--size', '9', '--count', '16', '--seed', '7'], 9, 2, (5.5, 5.65)),
    # Three rows of 86 mm, of which 10 are no board; a line on the order stands above.
    (['--size', '7', '--count', '6', '--steps'], 7, 1, (9, 9.6)),
]


@pytest.mark.parametrize(('words', 'size', 'pages', 'sides'), by_words(ANSWERS))
def test_answers(maker: Maker, words: List[str], size: int, pages: int, sides: Tuple[float, float]) -> None:
    """They are as large as their pages have room for, and all alike."""
    page = maker.page(['towers', *words, '--answers', 'only']).partition('Steps: ')[0]
    assert page.count('<h1 dir="auto">Answers: ') == pages
    (width,) = set(re.findall(r'<svg role="img" width="([0-9.]+)mm"', page))
    assert sides[0] <= float(width) / (size + 1.04) <= sides[1]


#: Words, and how many of the puzzles come onto a page whose squares aren't smaller than 7 mm: reckoned by hand for A4, of which 186 by 250 mm are free.
TOO_MANY = [
    # Three columns have 57 mm each, and a puzzle 71 mm; three rows of 77 mm have 231 mm.
    (['towers', '--size', '9', '--per-page', '12'], 6),
    # A puzzle has 56.8 mm, three columns have 56.7 each, and four rows 56 besides the captions.
    (['towers', '--size', '7', '--per-page', '12'], 6),
    # Three columns of 54 mm, and three rows of 59 mm.
    (['unequal', '--size', '6', '--per-page', '12', '--paper', 'letter'], 9),
    # Two columns of 82 mm, and two rows of 88 mm.
    (['unequal', '--size', '9', '--per-page', '6', '--count', '6'], 4),
]


@pytest.mark.parametrize(('words', 'number'), TOO_MANY)
def test_too_many(maker: Maker, room: Room, words: List[str], number: int) -> None:
    """More than have room are refused, with the number that has; so many are printed."""
    asked = words[words.index('--per-page') + 1]
    told = f'puzzles-sheet: --per-page {asked}: the squares would be smaller than 7 mm; {number} on a page have room\n'
    maker.refuses([*words, '--output', 'page.html'], 2, told)
    assert room.names() == []
    page = maker.page([word if word != asked else str(number) for word in words])
    first = re.split('<section>', page)[1]
    assert len(re.findall('<figure style="height', first)) == number


@pytest.mark.parametrize('margin', ['0', '6.35', '12.7'])
def test_margins(maker: Maker, room: Room, margin: str) -> None:
    """WebKit, which is the engine of Safari, sets no margins by a page: whatever a printer leaves free, each page is one, with its foot."""
    need_tools()
    if not (shutil.which('WebKitWebDriver') and shutil.which('Xvfb')):
        raise Skip('there is no WebKitGTK with a screen', 'apt-get install webkit2gtk-driver xvfb')
    maker.run(['towers', '--count', '8', '--steps', '--output', 'page.html'])
    pdf = os.path.join(room.path, 'page.pdf')
    screen, env = on_screen(room)
    try:
        subprocess.run([sys.executable, str(WEBKIT), os.path.join(room.path, 'page.html'), pdf, margin], env=env, check=True, timeout=600)
    finally:
        screen.kill()
        screen.wait()
    texts = said('pdftotext', pdf, '-').split('\f')[:-1]
    feet = [re.findall(r'Sheet [0-9A-F]{4}, series 1\b', text) for text in texts]
    assert [len(found) for found in feet] == [1] * len(re.findall(b'<section>', room.read('page.html') or b''))


def test_pdf(maker: Maker, room: Room) -> None:
    """A Chromium that is there prints the sheet; the page is written beside it where that is asked for, too."""
    if not any(map(shutil.which, BROWSERS)):
        raise Skip('there is no Chromium')
    need_tools()
    ended = maker.run(['towers', '--count', '8', '--paper', 'letter', '--pdf', 'sheet.pdf', '--output', 'page.html'])
    if b'No usable sandbox' in ended.error:
        raise Skip('Chromium runs here for root alone. To try it: apt-get install chromium-sandbox')
    assert (ended.status, ended.output, ended.error) == (0, b'', b'')
    assert sorted(room.names()) == ['page.html', 'sheet.pdf']
    told = said('pdfinfo', os.path.join(room.path, 'sheet.pdf'))
    assert re.search(r'^Pages: +3$', told, re.MULTILINE) and re.search(r'^Page size: +612 x 792', told, re.MULTILINE)
    assert 'Answers: Towers' in said('pdftotext', os.path.join(room.path, 'sheet.pdf'), '-')


#: The words of a Firefox about itself; asked for a PDF it would go on for ever.
FIREFOX = b'#!/bin/sh\n[ "$1" = --version ] && echo Mozilla Firefox 140.0 || exec sleep 600\n'

#: Words, what is told where no PDF comes of them.
NO_PDF = [
    (['--browser', 'no-browser'], "there is no program 'no-browser'"),
    (['--browser', './a-firefox'], f'./a-firefox (Mozilla Firefox 140.0) makes no PDF by a command, as a Chromium does: {OTHERWISE}'),
    (['--browser', '/bin/false'], '/bin/false has made no PDF: write the page with --output, and print it in a browser'),
    ([], 'no Chromium was found (chromium, chromium-browser, google-chrome ..): --browser names one; or write the page with --output, and print it in a browser'),
]


@pytest.mark.parametrize(('words', 'told'), NO_PDF)
def test_no_pdf(maker: Maker, room: Room, words: List[str], told: str) -> None:
    """It is told what is lacking, and nothing is written."""
    # A folder for commands that has the Python of the tests alone.
    env = {} if words else {'PATH': room.lay('commands')}
    if env:
        room.link('commands/python3', sys.executable)
    room.put('a-firefox', FIREFOX, 0o755)
    maker.refuses(['towers', '--count', '1', '--pdf', 'sheet.pdf', *words], 1, f'puzzles-sheet: {told}\n', env=env)
    assert 'sheet.pdf' not in room.names()


#: Titles and captions that want to be more than text.
HOSTILE = [
    '<script>hit = 1</script><img src=x onerror="hit = 1">',
    '</title></style></bdi></h1></section><p onclick=\'hit = 1\'>"quoted" & \'quoted\' &amp; $code ${code} $$',
    'A' * 10_000,
    'long words ' * 900,
    'שלום עולם, a title of both kinds (in brackets)',
    '\u202eback and forth\u202c 漢字漢字漢字 é́́ 🧩',
]

#: Whether something was run, what the page fetches or could run, the title, those above the pages, and the captions.
LOOK = """[
  typeof hit, performance.getEntriesByType('resource').length, document.querySelectorAll('script, link, img, iframe, [src], [href], [onerror], [onclick]').length,
  document.title, [...new Set([...document.querySelectorAll('bdi')].map(each => each.textContent))], document.querySelectorAll('.note').length,
]"""


#: The sentence on a caption that is too long.
CUT = 'puzzle 1: the end of its caption is cut off, since 2 lines have room\n'


def test_hostile(paper: Browser, maker: Maker, room: Room) -> None:
    """Titles and captions are text, whatever stands in them; and what is measured is seen where it is wrong."""
    for text in HOSTILE:
        lines, title = content([f'{sixes()[0]} {text}', *sixes()[1:5]]), text[:90]
        page = maker.page(['--ids', '-', f'--title={title}', '--per-page', '9', '--ids-below'], lines, told=CUT if len(text) > 300 else '')
        shown(paper, room, page)
        title = ' '.join(title.split())
        *found, above, notes = paper.value(LOOK)
        assert [*found, notes] == ['undefined', 0, 0, title, 1]
        assert above == [title]
        assert not any(map(any, paper.value(MEASURE))), text[:40]
    shown(paper, room, re.sub('line-height:2', 'line-height:4', page))
    assert any(map(any, paper.value(MEASURE)))


#: Titles that are long, and as wide as may be; and another font, which is wider.
TITLES = ['W' * 62, 'MMMM WWWW ' * 6, 'ä rather long title, ' * 6, 'iiii ' * 40, '漢字' * 24, 'Щука ' * 14]
WIDER = ('Arial,"Liberation Sans",Helvetica,"DejaVu Sans"', '"DejaVu Sans"')


@pytest.mark.parametrize('title', in_the_gate(zip(TITLES), lambda row: row[0] not in TITLES[::4]))
def test_title(paper: Browser, maker: Maker, room: Room, title: str) -> None:
    """It takes as many lines as it needs, and nothing lies over another thing."""
    page = maker.page(['--ids', '-', '--title', title, '--per-page', '6', '--steps', '--example'], content(sixes()[:6]))
    for each in (page, page.replace(*WIDER)):
        found = printed(paper, room, each)
        assert not any(map(any, found.sticks_out))
        whole = ''.join(title.split())
        assert found.pages_with(whole) == list(range(1, len(found.texts) + 1))


#: Titles of one letter that have no room, with how many lines they may take, and how many have room: reckoned by hand. `A` may be 0.88 of its font.
LONG = [
    # 122 mm are free, and 26 letters of 4.66 mm have room; above the example a word stands before them.
    (['towers'], 1000, 1 + 39, 6),
    # 114 mm are free, and 14 letters of 8.07 mm have room.
    (['unequal', '--large'], 100, 1 + 8, 5),
]


@pytest.mark.parametrize(('words', 'letters', 'lines', 'most'), LONG)
def test_long_title(maker: Maker, words: List[str], letters: int, lines: int, most: int) -> None:
    """It is refused, and nothing is made."""
    told = f'puzzles-sheet: --title: it is too long: it may take {lines} lines, and {most} have room\n'
    maker.refuses([*words, '--title', 'A' * letters], 2, told)
