"""1. A second save works wherever the first one did, however the folder is reached."""

import contextlib
import os
from typing import Callable, ContextManager, Iterator, Optional, Tuple

import pytest

from tests.harness import Folder, Room, User
from tests.harness.game import save_text
from tests.harness.users import plain_user
from tests.saving.game import Saver, expect_none_left, expect_saved

#: Ways to write the path of a file in a room with a folder `sub` and a link `way` to it, and where the file then lies.
PATHS = [
    ('s.sav', 's.sav'),
    ('./s.sav', 's.sav'),
    ('sub/s.sav', 'sub/s.sav'),
    ('sub//s.sav', 'sub/s.sav'),
    ('sub/../s.sav', 's.sav'),
    ('way/s.sav', 'sub/s.sav'),
    ('way/../s.sav', 's.sav'),
    ('ROOM/s.sav', 's.sav'),
    ('ROOM/sub/./s.sav', 'sub/s.sav'),
    ('a name with\ntwo lines', 'a name with\ntwo lines'),
    ('\N{SNOWMAN}.sav', '\N{SNOWMAN}.sav'),
    ('-', '-'),
    ('n' * 255, 'n' * 255),
]

#: Paths in a folder that is hard to reach, in which `link` goes to `s.sav` and `down` to `sub/s.sav`.
SHORT_PATHS = [
    ('s.sav', 's.sav'),
    ('./s.sav', 's.sav'),
    ('sub/s.sav', 'sub/s.sav'),
    ('sub/../s.sav', 's.sav'),
    ('link', 's.sav'),
    ('down', 'sub/s.sav'),
]


Hard = Tuple[Folder, Optional[User]]


@contextlib.contextmanager
def not_utf8(room: Room) -> Iterator[Hard]:
    with room.make_folder(b'\xff\xfe') as folder:
        yield folder, None


@contextlib.contextmanager
def not_searched(room: Room) -> Iterator[Hard]:
    """Root could search it, so that another user saves."""
    user = plain_user()
    with room.make_folder('closed') as above, above.make_folder('open', owner=user and user.owner) as folder:
        os.fchmod(above.fd, 0)
        yield folder, user


@contextlib.contextmanager
def deeper_than_a_path(room: Room) -> Iterator[Hard]:
    with contextlib.ExitStack() as open_folders:
        folder: Folder = room
        for _ in range(18):
            folder = open_folders.enter_context(folder.make_folder('d' * 250))
        yield folder, None


@pytest.mark.parametrize(('path', 'file'), PATHS)
def test_path(saver: Saver, path: str, file: str) -> None:
    saver.room.make_folder('sub').close()
    saver.room.link('way', 'sub')
    saver.save_twice(saver.room, path.replace('ROOM', saver.room.path), file)


@pytest.mark.parametrize('make', [not_utf8, not_searched, deeper_than_a_path])
@pytest.mark.parametrize(('path', 'file'), SHORT_PATHS)
def test_hard_folder(saver: Saver, make: Callable[[Room], ContextManager[Hard]], path: str, file: str) -> None:
    with make(saver.room) as (folder, user):
        folder.make_folder('sub', owner=user and user.owner).close()
        folder.link('link', 's.sav')
        folder.link('down', 'sub/s.sav')
        saver.save_twice(folder, path, file, user)
        assert [folder.link_text('link'), folder.link_text('down')] == ['s.sav', 'sub/s.sav'], 'the links'


@pytest.mark.parametrize(('path', 'file'), [('s.sav', 's.sav'), ('link', 's.sav'), ('new.sav', 'new.sav')])
@pytest.mark.parametrize('mode', [0o300, 0o1300])
def test_folder_unread(saver: Saver, path: str, file: str, mode: int) -> None:
    """Only who may read a folder may ask for its flush; that it can't be asked is not told."""
    user = plain_user()
    owner = user and user.owner
    with saver.room.make_folder('unread', owner=owner) as folder:
        folder.put('s.sav', b'an old file', 0o640, owner)
        folder.link('link', 's.sav')
        os.fchmod(folder.fd, mode)
        expect_saved(saver.save(folder, path, 1, user=user), 1)
        os.fchmod(folder.fd, 0o700)
        assert folder.read(file) == save_text(1), 'the save'
        expect_none_left(folder)
