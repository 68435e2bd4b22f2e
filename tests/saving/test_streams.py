"""6. A save to a stream that is open for writing goes after what was written there, whatever the path is called."""

import contextlib
import os
import socket
import stat
import subprocess
from typing import Iterator, Optional, Tuple

import pytest

from tests.harness import Room
from tests.harness.game import left_files, save_text
from tests.harness.users import plain_user
from tests.saving.game import Saver, expect_none_left, expect_refused, expect_saved, expect_whole_left, replies

#: Paths of standard output in a room with a few links. FD is its number in this process, whose number is PID.
OUTPUT_PATHS = [
    '/dev/stdout', '//dev/stdout', '/dev/./stdout', '/dev/../dev//stdout', '/dev/fd/1', '/proc/self/fd/1', '/proc//self/fd/../fd/1',
    '/proc/thread-self/fd/1', '/proc/PID/fd/FD', 'link', 'link to link', 'ROOM/link to link', 'link to fd', 'way/1',
]

LINKS = [('link', '/dev/stdout'), ('link to link', 'link'), ('link to fd', '/proc/self/fd/1'), ('way', '/dev/fd')]

#: Paths of the file that the replies go to.
FILE_PATHS = ['out', './out', 'ROOM/out', 'link to out', 'other name']

OUTPUTS = [
    *((path, kind) for path in OUTPUT_PATHS for kind in ('a file', 'a file with a line in it', 'a file without a name', 'a pipe')),
    *((path, kind) for path in FILE_PATHS for kind in ('a file', 'a file with a line in it')),
]

#: Paths that begin as those of a stream, and name a file of the working folder.
PLAIN_PATHS = [
    '/proc/self/fd/../cwd/s.sav',
    '/dev/fd/../cwd/s.sav',
    '/proc/self/fd/../../self/cwd/s.sav',
    '/dev/fd/../root/ROOM/s.sav',
]


def furnish(room: Room) -> Room:
    for name, text in LINKS:
        room.link(name, text)
    return room


def named(path: str, room: Room, fd: Optional[int] = None) -> str:
    path = path.replace('ROOM', room.path).replace('PID', str(os.getpid()))
    return path if fd is None else path.replace('FD', str(fd))


@pytest.mark.parametrize(('path', 'kind'), OUTPUTS)
def test_output(saver: Saver, path: str, kind: str) -> None:
    """The save stands after the replies, and these after what was there."""
    room = furnish(saver.room)
    room.link('link to out', 'out')
    before = b'a line\n' if 'line' in kind else b''
    with open_output(room, kind, before) as (reading, writing):
        os.link('out', 'other name', src_dir_fd=room.fd, dst_dir_fd=room.fd)
        if 'without' in kind:
            room.remove('out')
        ended = saver.save(room, named(path, room, writing), 1, stdout=writing)
        os.close(writing)
        assert (ended.status, ended.error) == (0, b''), 'the end'
        with os.fdopen(os.dup(reading), 'rb') as file:
            assert file.read() == before + replies(1) + save_text(1), 'what standard output has'
    for name, text in LINKS:
        assert room.link_text(name) == text, f'the link {name}'
    expect_none_left(room)


@contextlib.contextmanager
def open_output(room: Room, kind: str, before: bytes) -> Iterator[Tuple[int, int]]:
    """Where to read what goes out, and where it goes. The file is called `out`; of a pipe it is the other end."""
    room.put('out', before)
    if kind == 'a pipe':
        reading, writing = os.pipe()
    else:
        reading = os.open('out', os.O_RDONLY, dir_fd=room.fd)
        writing = os.open('out', os.O_WRONLY, dir_fd=room.fd)
        os.lseek(writing, 0, os.SEEK_END)
    try:
        yield reading, writing
    finally:
        os.close(reading)


@pytest.mark.parametrize('path', ['/dev/stderr', '/proc/self/fd/2', 'err'])
def test_standard_error(saver: Saver, path: str) -> None:
    room = saver.room
    room.put('err', b'a line\n')
    with open(f'{room.path}/err', 'r+b') as file:
        file.seek(0, os.SEEK_END)
        ended = saver.save(room, path, 1, stderr=file.fileno())
    assert (ended.status, ended.output) == (0, replies(1)), 'the end'
    assert room.read('err') == b'a line\n' + save_text(1), 'what standard error has'
    expect_none_left(room)


STREAM_PATHS = ['/dev/fd/FD', '/proc/self/fd/FD', '//dev/fd/FD', 'link']


@pytest.mark.parametrize('path', STREAM_PATHS)
@pytest.mark.parametrize('flag', [os.O_APPEND, 0])
def test_another_stream(saver: Saver, path: str, flag: int) -> None:
    """The caller has opened it for writing. A line of his stands there before."""
    room = saver.room
    room.put('more', b'a line\n')
    fd = os.open('more', os.O_RDWR | flag, dir_fd=room.fd)
    os.lseek(fd, 0, os.SEEK_END)
    room.link('link', f'/dev/fd/{fd}')
    expect_saved(saver.save(room, named(path, room, fd), 1, kept=[fd]), 1)
    os.close(fd)
    assert room.read('more') == b'a line\n' + save_text(1), 'what the stream has'
    expect_none_left(room)


@pytest.mark.parametrize('path', PLAIN_PATHS)
def test_plain(saver: Saver, path: str) -> None:
    """It is replaced as any file, or made."""
    saver.save_twice(saver.room, named(path, saver.room), 's.sav')


@pytest.mark.parametrize('path', ['in', './in', 'link', '/dev/stdin'])
def test_input_file(saver: Saver, path: str) -> None:
    """A file that is open for reading alone is replaced as any."""
    room = saver.room
    script = b'move R0,0,1\n'
    room.put('in', script)
    room.link('link', 'in')
    with room.reader('in') as file:
        ended = saver.save(room, path, stdin=file.fileno())
        assert os.pread(file.fileno(), 1000, 0) == script, 'the old file, which is not written into,'
    expect_saved(ended, 1)
    assert room.read('in') == save_text(1), 'the save'
    expect_none_left(room)


@pytest.mark.parametrize('number', [1, 2])
def test_closed(saver: Saver, number: int) -> None:
    """The new file may get that number. Nothing but the save goes there."""
    ended = saver.save(saver.room, 's.sav', closed=[number])
    assert ended.status == 0, 'the status'
    assert saver.room.read('s.sav') == save_text(0), 'the save'


@pytest.mark.parametrize(('number', 'path'), [(1, '/dev/stdout'), (2, '/dev/stderr')])
def test_closed_itself(saver: Saver, number: int, path: str) -> None:
    user = plain_user()
    with saver.room.make_folder('hers', owner=user and user.owner) as hers:
        ended = saver.save(hers, path, user=user, closed=[number])
        assert ended.status == 1, 'the status'
        assert hers.names() == [], 'what lies there'


# Devices


def test_socket(saver: Saver) -> None:
    with socket.socket(socket.AF_UNIX) as server:
        server.bind(f'{saver.room.path}/socket')
        expect_refused(saver.save(saver.room, 'socket', 1), 1)
        assert saver.room.names() == ['socket'], 'what lies there'


@pytest.mark.parametrize('path', ['folder', 'folder/', '.', '..', 'ROOM/inner/folder'])
def test_folder(saver: Saver, path: str) -> None:
    with saver.room.make_folder('inner') as inner:
        inner.make_folder('folder').close()
        expect_refused(saver.save(inner, path.replace('ROOM', saver.room.path), 1), 1, saver.room)
        assert [name for name in inner.names() if name not in left_files(inner)] == ['folder'], 'what lies there'
        expect_whole_left(saver.room, save_text(1))


@pytest.mark.parametrize(('path', 'saves'), [('/dev/null', True), ('/dev/full', False)])
@pytest.mark.parametrize('is_linked', [False, True])
def test_device(saver: Saver, path: str, saves: bool, is_linked: bool) -> None:
    """A user who isn't root tries it, since root could take the device's place for all the machine."""
    user = plain_user()
    before = os.stat(path)
    with saver.room.make_folder('hers', owner=user and user.owner) as folder:
        folder.link('link', path)
        ended = saver.save(folder, 'link' if is_linked else path, 1, user=user)
        if saves:
            expect_saved(ended, 1)
        else:
            expect_refused(ended, 1)
        assert folder.names() == ['link'], 'what lies there'
    after = os.stat(path)
    assert (after.st_mode, after.st_ino, after.st_rdev) == (before.st_mode, before.st_ino, before.st_rdev), 'the device'


@pytest.mark.parametrize('path', ['fifo', './fifo', 'link'])
def test_fifo(saver: Saver, path: str) -> None:
    room = saver.room
    os.mkfifo('fifo', dir_fd=room.fd)
    room.link('link', 'fifo')
    reader = subprocess.Popen(['timeout', '600', 'cat', f'{room.path}/fifo'], stdout=subprocess.PIPE)
    expect_saved(saver.save(room, path, 1), 1)
    assert reader.communicate()[0] == save_text(1), 'what came through'
    assert room.names() == ['fifo', 'link'], 'what lies there'
    assert stat.S_ISFIFO(os.stat('fifo', dir_fd=room.fd).st_mode)
