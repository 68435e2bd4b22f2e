"""Text that becomes HTML: each piece is escaped where it is put in."""

from __future__ import annotations

import unicodedata
from html import escape
from string import Template
from typing import Iterable, Union


#: Letters that are as wide as two, from the first to the last: those of East Asia, and small pictures. No version of Unicode decides it.
WIDE = [
    (0x1100, 0x115F),
    (0x2600, 0x27BF),
    (0x2E80, 0xA4CF),
    (0xAC00, 0xD7A3),
    (0xF900, 0xFAFF),
    (0xFE30, 0xFE6F),
    (0xFF01, 0xFF60),
    (0xFFE0, 0xFFE6),
    (0x1F000, 0x1FAFF),
    (0x20000, 0x3FFFD),
]


class Markup(str):
    """HTML as it is. All other text is escaped before it comes among it."""


def fill(template: Template, **pieces: Union[str, int]) -> Markup:
    """The template with these pieces in their places."""
    return Markup(template.substitute({name: safe(piece) for name, piece in pieces.items()}))


def safe(piece: Union[str, int]) -> Markup:
    return piece if isinstance(piece, Markup) else Markup(escape(str(piece)))


def joined(pieces: Iterable[Markup], between: str = '') -> Markup:
    """Each piece after the other, with some HTML between two."""
    return Markup(between.join(pieces))


def plain(text: str) -> str:
    """A text from outside on one line, without what no page may have: control characters, and bytes that are no letters."""
    known = text.encode('utf-8', 'surrogateescape').decode('utf-8', 'replace')
    return ' '.join(''.join(letter if unicodedata.category(letter) != 'Cc' else ' ' for letter in known).split())


def width(text: str) -> int:
    """In letters: those of East Asia are as wide as two, and marks over another one have no width."""
    return sum(0 if unicodedata.category(letter) == 'Mn' else 1 + any(first <= ord(letter) <= last for first, last in WIDE) for letter in text)


def shortened(text: str, most: int) -> str:
    """The beginning of a text that has so many letters at most, with a sign where something is left out."""
    room = most
    for at, letter in enumerate(text):
        room -= width(letter)
        if room < 0:
            return f'{text[: max(0, at - 1)].rstrip()}…'
    return text
