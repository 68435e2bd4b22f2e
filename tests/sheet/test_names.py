"""Sheets for names: each has puzzles of its own, all have one key, and what is bad is told."""

import re
from typing import List, Sequence, Tuple

import pytest

from tests.harness import Room
from tests.sheet.making import Maker, content
from tests.sheet.reading import Picture, pictures
from tests.sheet.test_seeds import ids

NAMES = ['Anna', 'Ben', 'Ben', 'Çağla <Yıldız>', '李小龙', 'שלום']

#: A page has its head, and its foot.
PAGE = re.compile(r'<section>\n<header><h1 dir="auto">(.*?)<bdi>.*?</bdi></h1>(.*?)</header>\n(.*?)<footer><span>(.*?)</span><code></code><span>(\d+) / (\d+)</span>', re.DOTALL)


class Sheet:
    """A class's sheets: the pages with their kind, name, content, number and how many there are of that part."""

    def __init__(self, maker: Maker, room: Room, names: Sequence[str], words: Sequence[str], told: str = '') -> None:
        room.put('names', content(names))
        self.whole = maker.page(['towers', '--names', 'names', *words], told=told)
        self.pages = [(kind, re.sub('<[^>]*>', '', right), body, (int(at), int(of))) for kind, right, body, _, at, of in PAGE.findall(self.whole)]

    def of(self, kind: str) -> List[Tuple[str, str, str, Tuple[int, int]]]:
        return [page for page in self.pages if page[0] == kind]

    def own(self) -> List[str]:
        """The pages of the pupils, with their heads and feet."""
        return [page for page in re.findall('<section>.*?</section>', self.whole, re.DOTALL) if 'class="name own"' in page]


def test_names(maker: Maker, room: Room) -> None:
    """The puzzles are those of one sheet with so many more; each page has its name and number, and each code the pupil's place and the puzzle's number."""
    sheet = Sheet(maker, room, NAMES, ['--count', '7', '--per-page', '6'])
    together = maker.page(['towers', '--count', '42', '--answers', 'none'])
    assert [name for _, name, _, _ in sheet.of('')] == [name.replace('<', '&lt;').replace('>', '&gt;') for name in NAMES for _ in range(2)]
    assert [counted for *_, counted in sheet.of('')] == [(1, 2), (2, 2)] * 6
    drawn = [picture for _, _, body, _ in sheet.of('') for picture in pictures(body)]
    assert [picture.id for picture in drawn] == ids(together) and len(set(ids(together))) == 42
    codes = re.findall(r'× 5 · [0-9A-F]{4}-([0-9.]+)</i>', sheet.whole)
    assert codes == [f'{pupil}.{number}' for pupil in range(1, 7) for number in range(1, 8)]


def test_key(maker: Maker, room: Room) -> None:
    """One key has the answers of all, below the place and the name of each pupil."""
    sheet = Sheet(maker, room, NAMES, ['--count', '2'])
    key = ''.join(body for _, _, body, _ in sheet.of('Answers: '))
    found: List[Tuple[str, str, Picture]] = []
    place = ''
    for pupil, number, svg in re.findall(r'<p class="pupil"[^>]*>(.*?)</p><p class="line"><b>(\d+)</b>.*?(<svg.*?</svg>)', key, re.DOTALL):
        place = re.sub('<[^>]*>', '', pupil) or place
        found.append((place, number, pictures(svg)[0]))
    assert [(pupil.partition(' ')[0], number) for pupil, number, _ in found] == [(str(pupil), number) for pupil in range(1, 7) for number in '12']
    assert [pupil for pupil, *_ in found][::2] == [f'{at} {name}'.replace('<', '&lt;').replace('>', '&gt;') for at, name in enumerate(NAMES, 1)]
    assert [answer.id for *_, answer in found] == [picture.id for _, _, body, _ in sheet.of('') for picture in pictures(body)]


def test_one_more(maker: Maker, room: Room) -> None:
    """A name that is added at the end leaves the other sheets as they are, with their codes."""
    few, more = (Sheet(maker, room, names, ['--count', '3']).own() for names in (NAMES, [*NAMES, 'Zoë']))
    assert len(few) == len(NAMES) and more[: len(few)] == few and len(more) == len(few) + 1


def test_duplex(maker: Maker, room: Room) -> None:
    """Each pupil begins on the front of a sheet of paper, and so do the answers; blank backs have nothing at all."""
    sheet = Sheet(maker, room, NAMES[:3], ['--count', '4', '--duplex', '--example'])
    every = re.findall(r'<section>(.*?)</section>', sheet.whole, re.DOTALL)
    begins = [at for at, page in enumerate(every) if re.search('<span>1 / ', page)]
    assert len(begins) == 5 and not any(at % 2 for at in begins)
    assert [at for at, page in enumerate(every) if not page] == [at - 1 for at in begins[2:]]


def test_few(maker: Maker, room: Room) -> None:
    """Where there are fewer different puzzles than asked, it is told how many stand on two sheets."""
    room.put('names', content(NAMES))
    ended = maker.run(['towers', '--size', '3', '--count', '4', '--names', 'names', '--answers', 'none'])
    sheets = [[picture.id for picture in pictures(body)] for _, _, body, *_ in PAGE.findall(ended.output.decode())]
    assert [len(set(sheet)) for sheet in sheets] == [4] * 6
    more = 24 - len({id for sheet in sheets for id in sheet})
    assert more > 0 and f'{more} of the 24 puzzles stand on an earlier sheet, too: 60 in a row were there already\n' in ended.error.decode()


#: The text of a file of names, and the sentence.
BAD: List[Tuple[bytes, str]] = [
    (b'', 'names has no names\n'),
    (b'\n  \n', 'names has no names\n'),
    (b'A\n' * 500, 'names has more than 200 names\n'),
    (b'A\n' * 100, '100 names with 12 puzzles each are 1200 puzzles: a class has 1000 at most.\n'),
    ('Anna\nJosé\n'.encode('latin-1'), "names can't be read (line 2 isn't UTF-8)\n"),
    ('Anna\nJosé\n'.encode('utf-16'), "names can't be read (line 1 isn't UTF-8)\n"),
    (b'SAVEFILE:41:Simon Tatham\'s Portable Puzzle Collection\n', 'names is a save, and no list of names\n'),
]


@pytest.mark.parametrize(('names', 'told'), BAD, ids=range(len(BAD)))
def test_bad(maker: Maker, room: Room, names: bytes, told: str) -> None:
    room.put('names', names)
    maker.refuses(['towers', '--names', 'names', '--output', 'page.html'], 3, told)
    assert room.names() == ['names']


def test_unread(maker: Maker) -> None:
    maker.refuses(['towers', '--names', 'none'], 3, "none can't be read (No such file or directory)\n")


def test_long(maker: Maker, room: Room) -> None:
    """Of a name of 300 letters the end is cut off, and that is told."""
    sheet = Sheet(maker, room, ['Anna', 'x' * 300], ['--count', '1'], 'name 2 is long: its end may be cut off\n')
    assert len(sheet.of('')) == 2
