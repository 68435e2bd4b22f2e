"""A page on paper: printed by a browser, and looked at by the tools of poppler."""

import os
import re
import shutil
import subprocess
from typing import List, NamedTuple, Tuple

from tests.harness import Browser, Room, Skip

TOOLS = ['pdfinfo', 'pdftotext', 'pdftoppm']

#: Dots on an inch, for a look at the edges; and how many of them are free there: 8 mm of the 10 that are owed.
DOTS, FREE = 25, 8

#: The parts that stick out of their place in a section, in points of a screen: below the foot, right and left of the page, out of a caption, out of a
#: line; and how many pictures and captions lie over another one.
MEASURE = """
[...document.querySelectorAll('section')].map(section => {
  const page = section.getBoundingClientRect(), foot = section.querySelector('footer').getBoundingClientRect()
  const inside = [...section.querySelectorAll('svg, figcaption, .rules, .line, code, .note, .steps p')].filter(each => !each.closest('footer'))
  const boxes = inside.map(each => each.getBoundingClientRect()), own = section.querySelectorAll('svg, figcaption')
  const apart = [...own].map(each => each.getBoundingClientRect())
  const over = apart.filter((a, n) => apart.some((b, m) => m < n && a.left < b.right - 1 && b.left < a.right - 1 && a.top < b.bottom - 1 && b.top < a.bottom - 1))
  const held = [...section.querySelectorAll('figcaption, .steps')], lines = [...section.querySelectorAll('.line, footer')]
  return [
    Math.max(...boxes.map(box => box.bottom)) - foot.top, Math.max(...boxes.map(box => box.right)) - page.right,
    page.left - Math.min(...boxes.map(box => box.left)), Math.max(0, ...held.map(each => each.scrollHeight - each.clientHeight)),
    Math.max(0, ...lines.map(each => each.scrollWidth - each.clientWidth)), over.length,
  ].map(length => Math.max(0, Math.round(length)))
})
"""


class Printed(NamedTuple):
    """The words that came onto paper."""

    #: The text of each page, and that of all without white space.
    texts: List[str]
    paper: Tuple[float, float]
    #: By section, what `MEASURE` finds.
    sticks_out: List[List[int]]
    #: Whether the edges of all pages are white.
    is_free: bool

    def pages_with(self, text: str) -> List[int]:
        """The numbers of the pages on which a text stands, however it is broken into lines."""
        return [number for number, page in enumerate(self.texts, 1) if text in ''.join(page.split())]


def printed(browser: Browser, room: Room, page: str) -> Printed:
    need_tools()
    shown(browser, room, page)
    sticks_out = browser.value(MEASURE)
    path = os.path.join(room.path, 'page.pdf')
    room.put('page.pdf', browser.printed())
    size = re.search(r'^Page size: +([0-9.]+) x ([0-9.]+)', said('pdfinfo', path), re.MULTILINE)
    assert size
    texts = said('pdftotext', path, '-').split('\f')[:-1]
    return Printed(texts, (float(size[1]), float(size[2])), sticks_out, is_free(path))


def need_tools() -> None:
    if not all(map(shutil.which, TOOLS)):
        raise Skip('there are no tools of poppler', 'apt-get install poppler-utils')


def said(*words: str) -> str:
    return subprocess.run(words, stdout=subprocess.PIPE, check=True).stdout.decode()


def is_free(path: str) -> bool:
    """Whether nothing is printed at the edges of any page."""
    grey = subprocess.run(['pdftoppm', '-gray', '-r', str(DOTS), path], stdout=subprocess.PIPE, check=True).stdout
    pages = []
    while grey:
        kind, size, most, rest = grey.split(b'\n', 3)
        width, height = map(int, size.split())
        assert (kind, most) == (b'P5', b'255')
        pages.append([rest[at : at + width] for at in range(0, width * height, width)])
        grey = rest[width * height :]
    edges = [edge for page in pages for edge in (*page[:FREE], *page[-FREE:], *(row[:FREE] + row[-FREE:] for row in page))]
    return all(edge.count(b'\xff') == len(edge) for edge in edges)


def shown(browser: Browser, room: Room, page: str) -> None:
    room.put('page.html', page.encode())
    browser.show(os.path.join(room.path, 'page.html'))
