"""3. Each act on the new file is done to it alone, whatever stands at its name meanwhile, and nobody knows that name."""

import os
import re
import resource
import stat
from typing import List

import pytest

from tests.harness import Room, is_root
from tests.harness.game import left_files
from tests.harness.users import ANNA, GAMES
from tests.saving.game import Saver

#: How many names are looked at.
NAMES = 40

NAME = re.compile(r'\.puzzles\.([0-9a-f]{16})\.tmp')
#: Before each of these calls a name is swapped.
CALLS = ['open', 'stat', 'chown', 'chmod', 'write', 'fsync', 'close', 'rename', 'remove', 'folder']

SECRET = b'root alone may read this\n'


# A name that is swapped


@pytest.mark.parametrize('call', CALLS)
@pytest.mark.parametrize('also', ['', 'rename:EBUSY'])
def test_swapped_before(saver: Saver, call: str, also: str) -> None:
    """The name is swapped just before the program's first such call, and in the next round before the second."""
    library = saver.faults()
    saver.save(make_old(saver.room), 's.sav', env=library.env(call, also=also))
    for at in range(1, saver.faults().met().calls + 1):
        room = make_old(saver.room)
        secret = put_secret(room)
        saver.save(room, 's.sav', env=library.env(call, at, 'SWAP', swap=secret, also=also))
        expect_secret(room, f'before call {at}: ')


def make_old(room: Room) -> Room:
    """A file of Anna's, where it can be given to her, in an emptied room."""
    for name in room.names():
        room.remove(name)
    room.put('s.sav', b'old', 0o664, (ANNA.uid, GAMES) if is_root() else None)
    return room


def put_secret(room: Room) -> str:
    room.put('secret', SECRET, 0o600)
    return f'{room.path}/secret'


def expect_secret(room: Room, when: str = '') -> None:
    found = os.stat('secret', dir_fd=room.fd)
    assert oct(stat.S_IMODE(found.st_mode)) == oct(0o600), f'{when}the mode of root\'s file'
    assert (found.st_uid, found.st_gid) == (os.geteuid(), os.getegid()), f'{when}its owner'
    assert room.read('secret') == SECRET, f'{when}its content'


# The name itself


def test_names_differ(saver: Saver) -> None:
    """Where there can be a namespace for it, each run has one number in the system, too."""
    # The first process of a namespace can't be killed in it, so that this one is the second.
    front = ['unshare', '--pid', '--fork', 'sh', '-c', '"$@"; exit 0', 'sh'] if is_root() else []
    expect_unforeseen(left_names(saver, saver.room, front))


def left_names(saver: Saver, room: Room, front: List[str]) -> List[str]:
    """The names that runs leave when they are killed at their first write."""
    names = []
    for _ in range(NAMES):
        saver.save(room, 's.sav', front=front, limits={resource.RLIMIT_FSIZE: 0})
        for name in left_files(room):
            names.append(name)
            room.remove(name)
    return names


def expect_unforeseen(names: List[str]) -> None:
    """They are of the stated form, and each of their 64 bits is found both ways."""
    assert len(set(names)) == NAMES, 'how many names there are'
    others = [name for name in names if not NAME.fullmatch(name)]
    assert others == [], 'names of another form'
    found = [int(match[1], 16) for match in map(NAME.fullmatch, names) if match]
    always = [bit for bit in range(64) if len({number >> bit & 1 for number in found}) < 2]
    assert always == [], 'bits that are always the same'
