"""5. Where the new file can't take the old one's place, the old one is written; where that fails too, the new file is left. So it is, too, where a call is
made to fail (tests/faults)."""

import os
from typing import Any, Optional

import pytest

from tests.harness import Folder, need_root
from tests.harness.game import left_files, save_text
from tests.harness.mounts import bound_file, fill, small_disk
from tests.harness.users import ANNA, BERT, GAMES
from tests.saving.game import Saver, expect_none_left, expect_refused, expect_saved, expect_whole_left

#: Longer than any save here, so that a rest of it would show.
OLD = b'an old file\n' * 100


@pytest.mark.parametrize('path', ['s.sav', 'link', 'ROOM/s.sav'])
def test_mounted_file(saver: Saver, path: str) -> None:
    """Nothing can take the place of a file that is mounted alone: rename answers EBUSY."""
    room = saver.room
    room.put('s.sav')
    room.put('other', OLD, 0o640)
    room.link('link', 's.sav')
    with bound_file(f'{room.path}/other', f'{room.path}/s.sav'):
        expect_written(saver, room, path)
    assert room.read('other') == save_text(1), 'the other name'


def expect_written(saver: Saver, folder: Folder, path: str, **how: Any) -> None:
    """The same file has the save's bytes, and no others."""
    before = folder.status('s.sav')
    expect_saved(saver.save(folder, path.replace('ROOM', folder.path), 1, **how), 1)
    assert folder.read('s.sav') == save_text(1), 'the content'
    assert identity(folder.status('s.sav')) == identity(before), 'the file'
    expect_none_left(folder)


def identity(found: Optional[os.stat_result]) -> object:
    """Which file it is, and whose."""
    return found and (found.st_ino, found.st_mode, found.st_uid, found.st_gid)


@pytest.mark.parametrize('path', ['s.sav', 'link', 'ROOM/s.sav'])
def test_sticky_folder(saver: Saver, path: str) -> None:
    """In such a folder each user may make files, and take away or replace no other user's."""
    need_root()
    with saver.room.make_folder('sticky', 0o1777) as folder:
        folder.put('s.sav', OLD, 0o660, (ANNA.uid, GAMES))
        folder.link('link', 's.sav')
        os.chown('link', *BERT.owner, dir_fd=folder.fd, follow_symlinks=False)
        expect_written(saver, folder, path, user=BERT)


def test_mounted_file_on_a_full_disk(saver: Saver) -> None:
    """Neither can it be replaced nor written: its disk is full. The new file is left, whole."""
    room = saver.room
    room.put('s.sav')
    room.make_folder('disk').close()
    with small_disk(f'{room.path}/disk', 1 << 16), Folder('disk', room) as disk:
        disk.put('old', b'')
        with bound_file(f'{room.path}/disk/old', f'{room.path}/s.sav'):
            fill(disk)
            expect_refused(saver.save(room, 's.sav', 1), 1, room)
    assert len(left_files(room)) == 1, 'how many files are left'
    expect_whole_left(room, save_text(1))
