"""A document's picture has a note of what is seen on it, so that one of an earlier version is known, whatever fonts there are here."""

import os
import zlib
from pathlib import Path
from typing import Callable, Iterator, Tuple

#: How a picture in PNG begins: so many bytes up to the first piece that may be another; and the note's kind, with its name.
HEAD, KIND, NAME = 33, b'tEXt', b'Seen\0'

TIP = 'it is of an earlier version: PICTURES=new in the environment of this test stores it anew'


def expect_noted(path: Path, seen: str, picture: Callable[[], bytes]) -> None:
    """The picture is noted to show this; with PICTURES=new it is stored anew."""
    note = NAME + ascii(seen).encode()
    if os.environ.get('PICTURES') == 'new':
        content = picture()
        path.write_bytes(content[:HEAD] + piece(note) + content[HEAD:])
    assert note in [value for kind, value in pieces(path.read_bytes()) if kind == KIND], f'{path.name}: {TIP}'


def piece(value: bytes) -> bytes:
    return len(value).to_bytes(4, 'big') + KIND + value + zlib.crc32(KIND + value).to_bytes(4, 'big')


def pieces(content: bytes) -> Iterator[Tuple[bytes, bytes]]:
    """Each piece of a picture, by its kind."""
    at = 8
    while at < len(content):
        length = int.from_bytes(content[at : at + 4], 'big')
        yield content[at + 4 : at + 8], content[at + 8 : at + 8 + length]
        at += 12 + length
