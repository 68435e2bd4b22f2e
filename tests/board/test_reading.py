"""Reading and making files, each by itself."""

import os
from typing import Callable, List
from unittest import mock

from playing import files
from tests.harness import Room


def test_looked_at(room: Room) -> None:
    """A file that vanishes, or becomes a pipe, after the board has looked at it; and files at the limit."""
    path = os.path.join(room.path, 'game.sav')
    regular = os.stat(__file__)
    with mock.patch('os.stat', return_value=regular):
        assert files.read(path) == files.Found(files.Kind.ABSENT), 'vanished'
        os.mkfifo(path)
        assert files.read(path) == files.Found(files.Kind.OTHER, why='is a named pipe'), 'became a pipe'
    os.remove(path)
    for length, kind in ((0, files.Kind.READ), (files.MOST_BYTES, files.Kind.READ), (files.MOST_BYTES + 1, files.Kind.TOO_LARGE)):
        room.put('game.sav', b'\n' * length)
        assert files.read(path).kind == kind, f'{length} bytes'
    assert files.read('\0').kind == files.Kind.UNREADABLE, 'no text as a name'


def test_made(room: Room) -> None:
    """A new file takes nobody's place, and has nobody else's rights; what replaces a link leaves its target."""
    path = os.path.join(room.path, 'game.sav')
    assert (files.make(path, b'one'), room.read('game.sav')) == (True, b'one'), 'at first'
    assert room.mode('game.sav') == 0o600, 'its mode'
    assert (files.make(path, b'two'), room.read('game.sav')) == (False, b'one'), 'again'
    with mock.patch('os.link', side_effect=PermissionError):
        assert (files.make(path, b'two'), room.read('game.sav')) == (False, b'one'), 'without second names'
        assert (files.make(path + '.2', b'two'), room.read('game.sav.2')) == (True, b'two'), 'without second names, at first'
    room.link('link', 'game.sav')
    files.replace(os.path.join(room.path, 'link'), b'three')
    assert (room.read('link'), room.read('game.sav'), room.link_text('link')) == (b'three', b'one', None), 'over a link'
    with mock.patch('os.fsync', side_effect=OSError(28, 'No space left on device')):
        writes: List[Callable[[str, bytes], object]] = [files.replace, files.make]
        for write in writes:
            try:
                write(path, b'four')
            except OSError as error:
                assert files.why(error) == 'No space left on device', f'no room, {write.__name__}'
    assert (room.read('game.sav'), room.names()) == (b'one', ['game.sav', 'game.sav.2', 'link']), 'what is there then'
