"""A thing in the place of a kept file that can't be read: it stays as it is, it is told, and the game is kept beside it. And files and folders that other
users have."""

import os
import socket
import stat
from typing import Callable, List, NamedTuple, Optional, Sequence, Tuple

import pytest

from tests.board.playing import BoardFront
from tests.harness import ANNA, CARL, ID, Folder, Room, left_files, need_root, run, save_text
from tests.harness.room import Owner

FOLDER = 'state/puzzles'
KEPT, BESIDE = f'{FOLDER}/towers.sav', f'{FOLDER}/towers-2.sav'

#: A file has one byte more than a save may have.
TOO_LARGE = 16_777_217


class Face(NamedTuple):
    """One of both faces of the board: words, what goes back from a page, the keys that set all pencil marks, what is seen then, and how one leaves."""

    name: str
    words: Sequence[str]
    back: str
    marks: str
    shows: str
    leave: str


SCREEN = Face('the screen', [], 'x', 'm', 'move 1/1', 'q')
LINES = Face('lines', ['--lines'], '', 'm<enter>', 'towers 2/2>', 'q<enter>')

#: A window in which sentences stand below the board, on long lines.
LOW = (20, 132)


def link_to(target: str) -> Callable[[str], None]:
    return lambda path: os.symlink(target, path)


def bind_socket(path: str) -> None:
    """The name of a socket may be short alone, so it is named from its folder."""
    folder, name = os.path.split(path)
    with socket.socket(socket.AF_UNIX) as made, Folder(folder) as here:
        made.bind(f'/proc/self/fd/{here.fd}/{name}')


def put_long(path: str) -> None:
    with open(path, 'wb') as file:
        file.truncate(TOO_LARGE)


#: Things that aren't a file that can be read: how they are made, and the sentence on them.
THINGS: List[Tuple[Callable[[str], None], str]] = [
    (os.mkdir, 'is a folder'),
    (os.mkfifo, 'is a named pipe'),
    (bind_socket, 'is a socket'),
    (link_to('/dev/tty'), 'is a device'),
    (link_to('nothing'), 'is a link to nothing'),
    (link_to('towers.sav'), "can't be read (Too many levels of symbolic links)"),
    (put_long, 'has more than 16,777,216 bytes'),
]


def own_folder(room: Room) -> None:
    """The folder for games is Anna's."""
    for folder in ('state', FOLDER):
        os.mkdir(os.path.join(room.path, folder), 0o700)
        os.chown(os.path.join(room.path, folder), *ANNA.owner)


def beside(front: BoardFront, room: Room, face: Face, why: str) -> None:
    """It stays as it is; a new game is kept beside it, and goes on at the next start."""
    before = known(room, KEPT)
    with front.window([*face.words, 'towers'], LOW, leave=face.leave) as window:
        told = f"FOLDER/{KEPT} {why}: a file that can't be read stays as it is, and this game is kept in towers-2.sav."
        window.look('', [told])
        window.look(face.back + face.marks, [face.shows])
    assert known(room, KEPT) == before, 'what was there'
    assert b'MOVE    :1:M\n' in (room.read(BESIDE) or b''), room.paths()
    front.shows([*face.words], face.shows, size=LOW, leave=face.leave)
    assert known(room, KEPT) == before, 'what was there at the end'
    assert left_files(room) == [], 'no other file'


def known(room: Room, path: str) -> Optional[Tuple[int, ...]]:
    """The facts that tell a file from any other, and from itself after a change."""
    try:
        found = os.lstat(path, dir_fd=room.fd)
    except FileNotFoundError:
        return None
    return found.st_ino, found.st_mode, found.st_uid, found.st_size, found.st_mtime_ns


@pytest.mark.parametrize(('make', 'why', 'face'), [
    # Both faces meet pipes; the others differ in what is said alone.
    (make, why, face) for at, (make, why) in enumerate(THINGS) for face in ([SCREEN, LINES] if make is os.mkfifo else [[SCREEN, LINES][at % 2]])
])
def test_thing(front: BoardFront, room: Room, make: Callable[[str], None], why: str, face: Face) -> None:
    room.lay(KEPT, make)
    beside(front, room, face, why)


@pytest.mark.parametrize('face', [SCREEN, LINES])
@pytest.mark.parametrize(('owner', 'mode', 'why'), [
    (CARL.owner, 0o600, "(Permission denied; it is user 60003's)"),
    (ANNA.owner, 0, '(Permission denied)'),
])
def test_closed(front: BoardFront, room: Room, owner: Owner, mode: int, why: str, face: Face) -> None:
    need_root()
    own_folder(room)
    room.put(KEPT, save_text(2), mode, owner)
    beside(front.of(ANNA), room, face, f"can't be read {why}")


def test_no_bank(front: BoardFront, room: Room) -> None:
    """Then there are fair games alone, and the menu says why."""
    copied = front.of(None)
    bank = os.path.join(room.path, 'playing', 'bank', 'towers.txt')
    os.remove(bank)
    os.mkfifo(bank)
    with copied.window(['towers'], LOW, leave='qq') as window:
        window.look('', ['Towers 5x5'])
        window.look('n', ['[easy] hard  by an ID', f'{bank} is a named pipe.'])


def test_closed_folder(front: BoardFront, room: Room) -> None:
    """A folder that another user has, and one of one's own in which nothing can be made."""
    need_root()
    front = front.of(ANNA)
    room.make_folder('state', 0o755, ANNA.owner).close()
    for owner, mode in ((CARL.owner, 0o700), (ANNA.owner, 0o500)):
        room.make_folder(FOLDER, mode, owner).close()
        for face in (SCREEN, LINES):
            with front.window([*face.words, 'towers', ID], LOW, leave='y' if face is SCREEN else 'y<enter>') as window:
                told = f'The game is not kept: nothing can be written to FOLDER/{FOLDER} (Permission denied).'
                window.look('', [told])
                window.look(face.leave, ['Quit and lose it? y/N'])
        assert os.listdir(os.path.join(room.path, FOLDER)) == [], f'{oct(mode)}: what was there'
        os.rmdir(os.path.join(room.path, FOLDER))


def test_closed_kept(front: BoardFront, room: Room) -> None:
    """A kept game goes on where its folder can't be written to, and stays as it is."""
    need_root()
    front = front.of(ANNA)
    own_folder(room)
    for path, content in ((KEPT, save_text(2)), (f'{FOLDER}/towers.lock', b'')):
        room.put(path, content, 0o600, ANNA.owner)
    os.chmod(os.path.join(room.path, FOLDER), 0o500)
    with front.window([], LOW, leave='qy') as window:
        window.look('', ['2 of 9', 'The game is not kept: Permission denied.'])
        window.look('u', ['1 of 9'])
    assert room.read(KEPT) == save_text(2), 'what is kept'


def test_closed_files(front: BoardFront, room: Room) -> None:
    """Files of another user that a player names, and a folder of old games that he may not read."""
    need_root()
    front = front.of(ANNA)
    own_folder(room)
    room.put('game.sav', save_text(2), 0o600, CARL.owner)
    room.make_folder(f'{FOLDER}/old', stat.S_IWUSR | stat.S_IXUSR, ANNA.owner).close()
    why = "can't be read (Permission denied; it is user 60003's)."
    with front.window(['towers', ID], LOW, leave='q') as window:
        window.look('o0FOLDER/game.sav<enter>', [f'FOLDER/game.sav {why}', '0 of 9'])
        window.look('wFOLDER/game.sav<enter>', ["game.sav exists, and can't be read. Overwrite it? y/N"])
        window.look('x', ['Nothing was saved.'])
        window.look('oq', [f"FOLDER/{FOLDER}/old can't be read (Permission denied)."])
    front.shows(['--lines', os.path.join(room.path, 'game.sav')], f'FOLDER/game.sav {why}', size=LOW, leave='', status=3)


def test_closed_program(front: BoardFront, room: Room) -> None:
    """A program that may be run and not read plays, and nobody knows whether it is the proved one."""
    need_root()
    front = front.of(ANNA)
    os.chmod(front.program, 0o711)
    room.put('VERSION', b'version 1.1\ncommit none\nproved by some kit\n')
    ended = run([front.path, '--version'], room, env=front.env(), user=ANNA)
    assert (ended.status, ended.error) == (0, b''), 'the status'
    assert b'not known to be proved' in ended.output, ended
    room.remove('VERSION')
    os.mkfifo(os.path.join(room.path, 'VERSION'))
    ended = run([front.path, '--version'], room, env=front.env(), user=ANNA)
    assert (ended.status, ended.output.splitlines()[:1]) == (0, [b'puzzles of no known version']), 'with a pipe as VERSION'
