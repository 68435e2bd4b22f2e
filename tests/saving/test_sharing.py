"""2. The right to read and write a file is as it was: its group, its owner, its mode. Never may more."""

import os
from typing import NamedTuple, Optional

import pytest

from tests.harness import Folder, User, by_name, need_root
from tests.harness.game import save_text
from tests.harness.room import Owner
from tests.harness.users import ANNA, BERT, CARL, CHESS, GAMES
from tests.saving.game import Saver, expect_none_left, expect_saved


class Share(NamedTuple):
    """A file that somebody saves to, and whose it is afterwards. Nobody's saver is root."""

    name: str
    owner: Owner
    mode: int
    saver: Optional[User]
    owner_after: Owner
    mode_after: int


ANNAS = (ANNA.uid, GAMES)
BERTS = (BERT.uid, GAMES)
HERS = ANNA.owner
ALONE = User(ANNA.uid, ANNA.gid)
ROOTS = (0, 0)

SHARES = [
    # The group is kept by a member of it, and then so are its bits.
    Share('a member saves', ANNAS, 0o660, BERT, BERTS, 0o660),
    Share('a member saves', ANNAS, 0o664, BERT, BERTS, 0o664),
    Share('a member saves', ANNAS, 0o666, BERT, BERTS, 0o666),
    Share('a member who may not read it saves', ANNAS, 0o620, BERT, BERTS, 0o620),
    Share('a member saves what all may run', ANNAS, 0o775, BERT, BERTS, 0o775),
    Share('the owner saves', ANNAS, 0o660, ANNA, ANNAS, 0o660),
    Share('the owner saves', ANNAS, 0o640, ANNA, ANNAS, 0o640),
    Share('the owner saves', ANNAS, 0o604, ANNA, ANNAS, 0o604),
    Share('the owner saves a second group\'s', (ANNA.uid, CHESS), 0o660, ANNA, (ANNA.uid, CHESS), 0o660),
    Share('the owner saves, whose own group it is', HERS, 0o664, ANNA, HERS, 0o664),
    # Root keeps all.
    Share('root saves', ANNAS, 0o660, None, ANNAS, 0o660),
    Share('root saves', ANNAS, 0o600, None, ANNAS, 0o600),
    Share('root saves', ANNAS, 0o646, None, ANNAS, 0o646),
    Share('root saves what its owner may not write', ANNAS, 0o440, None, ANNAS, 0o440),
    Share('root saves what nobody may read', ANNAS, 0o000, None, ANNAS, 0o000),
    Share('root saves root\'s', ROOTS, 0o644, None, ROOTS, 0o644),
    Share('root saves a user\'s of root\'s group', (ANNA.uid, 0), 0o660, None, (ANNA.uid, 0), 0o660),
    # Where the group can't be kept its bits are gone, and others may no more than the group could.
    Share('an owner outside the group saves', ANNAS, 0o660, ALONE, HERS, 0o600),
    Share('an owner outside the group saves', ANNAS, 0o664, ALONE, HERS, 0o604),
    Share('an owner outside the group saves', ANNAS, 0o640, ALONE, HERS, 0o600),
    Share('an owner outside the group saves', ANNAS, 0o606, ALONE, HERS, 0o600),
    Share('an owner outside the group saves', ANNAS, 0o646, ALONE, HERS, 0o604),
    Share('an owner outside the group saves', ANNAS, 0o775, ALONE, HERS, 0o705),
    Share('somebody else saves what all may write', ANNAS, 0o666, CARL, CARL.owner, 0o606),
    Share('somebody else saves what all may write', ANNAS, 0o602, CARL, CARL.owner, 0o600),
    Share('somebody else saves what all may write', HERS, 0o646, BERT, BERT.owner, 0o604),
    # A set-id bit said of the old file that it may be run so.
    Share('root saves a set-id file', ANNAS, 0o4755, None, ANNAS, 0o755),
    Share('root saves a set-id file', ANNAS, 0o2775, None, ANNAS, 0o775),
    Share('the owner saves a set-id file', ANNAS, 0o6770, ANNA, ANNAS, 0o770),
    Share('a member saves a set-id file', ANNAS, 0o6660, BERT, BERTS, 0o660),
]

#: Modes of one's own file: these stay but for a set-id bit, with an owner and a group that need not be given.
OWN_MODES = [
    *((mode, umask) for mode in (0o600, 0o606, 0o640, 0o644, 0o660, 0o664, 0o666, 0o700, 0o755, 0o777) for umask in (0o000, 0o022, 0o077, 0o777)),
    *((mode, 0o022) for mode in (0o4755, 0o2755, 0o6644)),
]


@pytest.mark.parametrize('share', SHARES, ids=by_name)
@pytest.mark.parametrize('folder_group', [None, CHESS])
def test_share_kept(saver: Saver, share: Share, folder_group: Optional[int]) -> None:
    """The folder is for all, or it hands on a group of its own."""
    need_root()
    owner = (0, folder_group or 0)
    with saver.room.make_folder('shared', 0o2777 if folder_group else 0o777, owner) as folder:
        folder.put('s.sav', b'old', share.mode, share.owner)
        expect_saved(saver.save(folder, 's.sav', user=share.saver))
        assert folder.read('s.sav') == save_text(0), 'the content'
        expect_none_left(folder)
        after = share.owner_after
        if folder_group and share.mode_after & 0o777 != share.mode & 0o777:
            # The group can't be kept, so that it is the folder's.
            after = (after[0], folder_group)
        expect_owner(folder, after, share.mode_after)


def expect_owner(folder: Folder, owner: Owner, mode: int) -> None:
    found = os.stat('s.sav', dir_fd=folder.fd)
    assert (found.st_uid, found.st_gid) == owner, 'owner and group'
    assert oct(folder.mode('s.sav') or 0) == oct(mode), 'the mode'


@pytest.mark.parametrize(('mode', 'umask'), OWN_MODES)
def test_own_mode_kept(saver: Saver, mode: int, umask: int) -> None:
    # It is longer than the save: no rest of it may show.
    saver.room.put('s.sav', b'old' * 1000, mode)
    expect_saved(saver.save(saver.room, 's.sav', umask=umask))
    assert saver.room.read('s.sav') == save_text(0), 'the content'
    assert oct(saver.room.mode('s.sav') or 0) == oct(mode & 0o777), 'the mode'


@pytest.mark.parametrize('umask', [0o000, 0o002, 0o022, 0o027, 0o077])
@pytest.mark.parametrize('path', ['s.sav', 'link'])
def test_new_mode(saver: Saver, umask: int, path: str) -> None:
    saver.room.link('link', 's.sav')
    expect_saved(saver.save(saver.room, path, umask=umask))
    assert oct(saver.room.mode('s.sav') or 0) == oct(0o666 & ~umask), 'the mode'


@pytest.mark.parametrize(('mode', 'call', 'number'), [(0o600, 'chmod', 'EPERM'), (0o600, 'chown', 'EPERM'), (0o600, 'chown', 'EINVAL'), (0o640, 'chown', 'EPERM')])
def test_mode_not_set(saver: Saver, mode: int, call: str, number: str) -> None:
    """Some folders refuse that a mode is set, or an owner. Where nothing differs, nothing need be set."""
    saver.room.put('s.sav', b'old', mode)
    expect_saved(saver.save(saver.room, 's.sav', env=saver.faults().env(call, 1, number, on=True)))
    assert saver.room.read('s.sav') == save_text(0), 'the content'
    assert oct(saver.room.mode('s.sav') or 0) == oct(mode), 'the mode'
