"""The facts that the board itself sees in a save: that it is one, of which game, and whether anything was done in it."""

from __future__ import annotations

import re
from typing import Iterator, Tuple

#: How each save begins.
BEGINS = b'SAVEFILE:41:'

#: The record that names the game, up to the length of its name; the one that counts the states; and how a save ends in which nothing was done.
GAME = re.compile(rb'^GAME    :([0-9]{1,3}):', re.MULTILINE)
STATES, UNTOUCHED = b'NSTATES :', b'\nNSTATES :1:1\nSTATEPOS:1:1\n'


#: A record's key and its length; and the keys of those that are states.
RECORD, MOVES = re.compile(rb'[\r\n]*([^:\r\n]{1,8}):([0-9]{1,8}):'), (b'MOVE', b'SOLVE', b'RESTART')


def records(content: bytes) -> Iterator[Tuple[bytes, bytes, int]]:
    """Each whole record's key, its value, and where it ends."""
    found = RECORD.match(content)
    while found and found.end() + int(found[2]) <= len(content):
        end = found.end() + int(found[2])
        yield found[1].rstrip(), content[found.end() : end], end
        found = RECORD.match(content, end)


def after(content: bytes) -> bytes:
    """The bytes after a save that has all its states, which are none of its records: another save begins even where a line's end is lacking before it."""
    counted, states, last = b'', 1, 0
    for key, value, end in records(content):
        if last and key == b'SAVEFILE':
            break
        counted = value if key == b'NSTATES' else counted
        states, last = states + (key in MOVES), end
    is_whole = counted.isdigit() and int(counted) == states
    return content[last:].lstrip(b'\r\n') if is_whole else b''


def game_in(content: bytes) -> str:
    """The name of a save's game, of whatever game it is; nothing where it doesn't say."""
    found = GAME.search(content)
    return content[found.end() : found.end() + int(found[1])].decode('ascii', 'replace') if found else ''


def is_untouched(content: bytes) -> bool:
    """Whether it is a save in which nothing was done."""
    return content.startswith(BEGINS) and content.count(STATES) == 1 and content.endswith(UNTOUCHED)
