"""How many lines titles and texts take at most, whatever font a page gets: nothing of them is cut."""

from __future__ import annotations

import unicodedata
from typing import Callable

#: How wide bold letters are at most, in per cent of their font, over the fonts that a page may get.
SPACE, NARROW, SMALL, CAPITAL, WIDE, ANY = 35, 53, 72, 88, 117, 156
NARROW_LETTERS = 'ijlItfr.,:;\'!|()[]-/"'
WIDE_LETTERS = 'mMwW%@–—…ÆæŒœŴŵŉĦħµ©®¼½¾'

#: Letters below this are those of European languages in Latin letters.
LATIN = '\u0180'

#: The same of letters of texts, which are English, by how wide they are at most; and of any others.
TEXT_WIDTHS = {
    28: "'ijl",
    32: ' I',
    34: ',.·:;/|’',
    37: 'f-',
    42: 'rt()[]!',
    56: 'czsLJ"“”*?',
    60: 'kvxy',
    62: 'aeoF',
    64: 'bdghnpqu0123456789',
    69: 'ABEKPSTVXYZ',
    79: 'CDGHNOQRU&',
    84: 'w+<=>×#',
}
TEXT_ANY = 103
TEXT_WIDTH = {letter: each for each, some in TEXT_WIDTHS.items() for letter in some}


def bold_width(letter: str) -> int:
    """At most, in per cent of the font."""
    if letter == ' ':
        return SPACE
    if letter in NARROW_LETTERS:
        return NARROW
    if letter in WIDE_LETTERS:
        return WIDE
    if unicodedata.category(letter) in ('Mn', 'Cf'):
        return 0
    if letter >= LATIN:
        return ANY
    return SMALL if letter.islower() or letter.isdigit() else CAPITAL


def text_width(letter: str) -> int:
    """The same of a text."""
    return TEXT_WIDTH.get(letter, TEXT_ANY)


def lines(text: str, room: int, font: int, label: str = '', width: Callable[[str], int] = text_width) -> int:
    """How many lines a text takes at most, behind a label in bold. A word that is longer than a line begins a new one, and is broken wherever a line is full."""
    most = room * 100 // font
    count, used = 1, sum(map(bold_width, label))
    for word in text.split():
        widths = [width(letter) for letter in word]
        blank = width(' ') if used else 0
        if used and used + blank + sum(widths) > most:
            count, used, blank = count + 1, 0, 0
        used += blank
        for each in widths:
            if used + each > most:
                count, used = count + 1, 0
            used += each
    return count
