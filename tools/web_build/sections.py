"""The sections of a module of WebAssembly: those are left out that it has no use for."""

from __future__ import annotations

from typing import Iterator, NamedTuple, Tuple

from web_build.scripts import Unfit

#: A module begins so, and then with its version.
MAGIC = b'\0asm\1\0\0\0'

#: The numbers of the sections that matter here.
CUSTOM, TABLES, ELEMENTS = 0, 4, 9


class Section(NamedTuple):
    number: int
    #: With its number and its length.
    whole: bytes
    content: bytes


def without_idle(module: bytes) -> bytes:
    """The module without its table of functions, which is empty and whose limits of 64 bits not every engine reads, and without names. Raises Unfit where functions are
    in the table: then there are calls by way of it."""
    sections = list(sections_of(module))
    if any(section.number == ELEMENTS for section in sections):
        raise Unfit('the module has functions in its table')
    return MAGIC + b''.join(section.whole for section in sections if section.number not in (CUSTOM, TABLES))


def sections_of(module: bytes) -> Iterator[Section]:
    if not module.startswith(MAGIC):
        raise Unfit('this is no module of WebAssembly')
    at = len(MAGIC)
    while at < len(module):
        length, start = number(module, at + 1)
        end = start + length
        yield Section(module[at], module[at:end], module[start:end])
        at = end


def number(module: bytes, at: int) -> Tuple[int, int]:
    """The number that is written there, seven bits a byte, the low ones first; and where it ends."""
    found = shift = 0
    while True:
        byte = module[at]
        found |= (byte & 0x7F) << shift
        shift += 7
        at += 1
        if byte < 0x80:
            return found, at
