"""A disk that is full, and has room again: nothing is lost, whatever ends the board then."""

import contextlib
import os
from typing import Callable, Iterator, List, NamedTuple, Sequence, Tuple

import pytest

from tests.board.playing import BoardFront
from tests.board.test_lives import ENDS as ENDS_OF_ALL
from tests.harness import ID, Folder, Room, Terminal, by_name, fill, left_files, save_text, small_disk
from tests.harness.program import eventually

KEPT = 'puzzles/towers.sav'
NOT_KEPT = 'The game is not kept: No space left on device'


class Face(NamedTuple):
    """The board or the lines: words, keys that put in the numbers 1 and 2, what is seen then, a key that changes nothing, and all that ends it."""

    name: str
    words: Sequence[str]
    one: str
    two: str
    shows: Tuple[str, str]
    other: Tuple[str, str]
    ends: Sequence[Tuple[Callable[[Terminal], None], int]]


def keys(text: str) -> Callable[[Terminal], None]:
    return lambda window: window.press(text)


SIGNALS: List[Tuple[Callable[[Terminal], None], int]] = [end[1:] for end in ENDS_OF_ALL if end[0] != 'the front is killed']
FACES = [
    Face('the board', [], '1', '<right>2', ('1 of 9', '2 of 9'), ('?', 'any key goes back'), [(keys('q'), 0), (keys('<ctrl-c>'), 0), *SIGNALS]),
    Face(
        'lines', ['--lines'], '1 1 1<enter>', '1 2 2<enter>', ('towers 2/2>', 'towers 3/3>'), ('rules<enter>', 'and one to its right'),
        [(keys('q<enter>'), 0), (keys('\x04'), 0), *SIGNALS],
    ),
]
ENDS = [(face, *end) for face in FACES for end in face.ends]


@contextlib.contextmanager
def full_disk(front: BoardFront, room: Room, face: Face) -> Iterator[Tuple[Terminal, Folder]]:
    """A move was made after the disk was full; the file has the game as it was before."""
    with small_disk(room.lay('state'), 1 << 16), Folder('state', room) as disk:
        with front.window([*face.words, 'towers', ID]) as window:
            window.look(face.one, [face.shows[0]])
            fill(disk)
            window.look(face.two, [NOT_KEPT, face.shows[1]])
            assert disk.read(KEPT) == save_text(1), 'what is kept'
            yield window, disk
        assert left_files(disk) == [], 'no new file is left'


@pytest.mark.parametrize('face', FACES, ids=by_name)
def test_key(front: BoardFront, room: Room, face: Face) -> None:
    """With room again any key keeps the game."""
    with full_disk(front, room, face) as (window, disk):
        disk.remove('filler')
        window.look(face.other[0], [face.other[1]])
        assert eventually(lambda: disk.read(KEPT) == save_text(2)), 'what is kept'


def test_no_key(front: BoardFront, room: Room) -> None:
    """With room again the board keeps the game, though no key comes."""
    with full_disk(front, room, FACES[0]) as (window, disk):
        disk.remove('filler')
        window.look('', ['2 of 9'], ['not kept'])
        assert disk.read(KEPT) == save_text(2), 'what is kept'


@pytest.mark.parametrize(('typed', 'leave'), [('1 3', ' 3<enter>q<enter>'), ('solve<enter>', 'n<enter>q<enter>'), ('desk<enter>', 'back<enter>q<enter>')])
def test_no_line(front: BoardFront, room: Room, typed: str, leave: str) -> None:
    """Nor does a line: while one is typed, at a question, and at the desk."""
    with full_disk(front, room, FACES[1]) as (window, disk):
        window.press(typed)
        disk.remove('filler')
        assert eventually(lambda: disk.read(KEPT) == save_text(2)), 'what is kept'
        window.leave(leave)


#: The key for each thing that may be over the board: a page, a question, a list, a typed line, the choice of a new game, the desk; a text seen then, and the keys that leave.
OVER = [
    ('?', 'any key goes back', '<escape>q'),
    ('S', 'y/N', '<escape>q'),
    ('o', 'arrows and Enter, or a number, choose', '<escape>q'),
    (':undo', ': undo', '<escape>q'),
    ('n', 'A new game', '<escape>q'),
    ('E', 'A board without items', '<escape>qq'),
    ('E<enter>', 'E back', 'qq'),
]


@pytest.mark.parametrize(('pressed', 'shows', 'leave'), OVER)
def test_no_key_beyond(front: BoardFront, room: Room, pressed: str, shows: str, leave: str) -> None:
    """The same, whatever is over the board meanwhile."""
    with full_disk(front, room, FACES[0]) as (window, disk):
        window.look(pressed, [shows])
        disk.remove('filler')
        assert eventually(lambda: disk.read(KEPT) == save_text(2)), 'what is kept'
        window.look('', [shows])
        window.leave(leave)


@pytest.mark.parametrize(('face', 'end', 'status'), ENDS)
def test_end(front: BoardFront, room: Room, face: Face, end: Callable[[Terminal], None], status: int) -> None:
    """With room again all that ends it keeps the game, without a question."""
    with full_disk(front, room, face) as (window, disk):
        disk.remove('filler')
        end(window)
        assert window.status() == status
        assert disk.read(KEPT) == save_text(2), 'what is kept'


def test_no_room(front: BoardFront, room: Room) -> None:
    """Without room it is asked whether the game is to be lost; it goes on in lines and on the board, and nothing is put away."""
    with full_disk(front, room, FACES[0]) as (window, disk):
        window.look('q', ['The game is not kept (No space left on device). Quit and lose it? y/N'])
        window.look('x', ['2 of 9'], ['y/N'])
        window.look('T', ['1 3 1 2 . -', 'towers 3/3>'])
        window.look('q<enter>', ['Quit and lose it? y/N'])
        window.look('n<enter>T<enter>', ['│     1     │     2     │', '2 of 9'])
        window.look(':new 5!7<enter>', ["The present game can't be put away (No space left on device). Lose it? y/N"])
        window.look('x', ['The present game stays.', '2 of 9'])
        disk.remove('filler')
        window.look('<right><right>3', ['3 of 9'], ['not kept'])
        window.leave('q')
        assert disk.read(KEPT) == save_text(3), 'what is kept then'
        fill(disk)
        with front.window(['towers', '5!7']) as other:
            other.look('', ["The present game can't be put away (No space left on device). Lose it? y/N"])
            other.leave('n', 3)
        assert disk.read(KEPT) == save_text(3), 'what is kept at the end'


@pytest.mark.parametrize('face', FACES, ids=by_name)
def test_late_folder(front: BoardFront, room: Room, face: Face) -> None:
    """A game that had no file gets one as soon as it can, and takes no other game's place."""
    room.link('state', 'later')
    with front.window([*face.words, 'towers', ID], leave='q' if face is FACES[0] else 'q<enter>') as window:
        window.look('', ['The game is not kept: nothing can be written to'])
        room.lay('soon/puzzles')
        room.put(f'soon/{KEPT}', save_text(3))
        # At once, since that is tried again each second.
        os.rename(os.path.join(room.path, 'soon'), os.path.join(room.path, 'later'))
        window.look(face.one, [face.shows[0]], ['not kept'] if face is FACES[0] else [])
    assert room.read(f'later/{KEPT}') == save_text(3), 'the other game'
    assert room.read('later/puzzles/towers-2.sav') == save_text(1), 'this one'
