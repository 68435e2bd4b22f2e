"""The setter's desk: its drafts, how it is left and comes back, and blank boards of all sizes."""

import re
import signal
from typing import List

import pytest

from playing.desk import MOST, Draft, draft_in
from tests.board.playing import BoardFront
from tests.harness import ID, Folder, Room, fill, run, save_text, small_disk

DRAFT = 'state/puzzles/towers-draft.ids'

#: A board without items, with a clue 1, and with a given beside it.
PUZZLES = ('3:///////////', '3:1///////////', '3:1///////////,1h')
KEPT = Draft(PUZZLES, 2)

#: Texts that are no draft, or another version's, and why.
UNREAD: List[bytes] = [
    b'',
    b'\n',
    b'draft 2, puzzle 1\n3:///////////\n',
    b'draft 1, puzzle 0\n3:///////////\n',
    b'draft 1, puzzle 2\n3:///////////\n',
    b'draft 1, puzzle 1\n',
    b'draft 1, puzzle 1\n2:///////////\n',
    b'draft 1, puzzle 1\n3:///\x1b[2J////////\n',
    b'\xff\0' * 400,
]


@pytest.mark.parametrize('content', UNREAD)
def test_unread(content: bytes) -> None:
    assert draft_in(content) is None


def test_draft() -> None:
    """It reads as it was written. A change that is undone goes with the next change, and the first puzzles where there are too many."""
    assert draft_in(KEPT.content) == KEPT
    assert Draft(PUZZLES, 1).with_puzzle(PUZZLES[1]) == Draft(PUZZLES, 1)
    assert Draft(PUZZLES, 0).with_puzzle(PUZZLES[2]) == Draft((PUZZLES[0], PUZZLES[2]), 1)
    many = Draft(tuple(map(str, range(MOST))), MOST - 1).with_puzzle('new')
    assert (len(many.ids), many.ids[0], many.ids[many.at]) == (MOST, '1', 'new')


def test_kept(front: BoardFront, room: Room) -> None:
    """It is there at the next start, with what can be undone; so is the other game's. The game is as it was, and its file has nothing of the desk."""
    with front.begun('q') as window:
        window.look('E<enter><up>1<down>1', ['change 2/2', '1 clue, 1 given'])
        window.look('n<up><up><right><down><down><enter>', ['Unequal 3x3', '0 signs, 0 given', 'change 0/0'])
        window.look('3', ['0 signs, 1 given', 'change 1/1'])
        window.look('q', ['1 of 9', 'move 1/1'])
    assert room.read(DRAFT) == KEPT.content
    assert room.read('state/puzzles/unequal-draft.ids') == Draft(('3:0,0,0,0,0,0,0,0,0,', '3:3,0,0,0,0,0,0,0,0,'), 1).content
    assert room.read('state/puzzles/towers.sav') == save_text(1)
    with front.window([]) as window:
        window.look('E', ['change 2/2', '1 clue, 1 given', 'This is your draft. n begins another board. No solution.'])
        window.look('uu', ['change 0/2', '0 clues, 0 given'], ['This is your draft'])
        window.look('n<up><up><right><down><down><right><enter>', ['Unequal 3x3', 'change 1/1'])
        # A signal ends it at the desk, too.
        window.signal(signal.SIGTERM)
        assert window.status() == 143
    assert room.read(DRAFT) == KEPT._replace(at=0).content
    assert room.read('state/puzzles/towers.sav') == save_text(1)


def test_windows(front: BoardFront, room: Room) -> None:
    """Another window keeps a draft of its own."""
    with front.window(['towers', ID], leave='qq') as window, front.window(['towers', '5!7']) as other:
        window.look('E<enter>1', ['change 1/1'])
        other.look('E', ['Another window has the last draft; this one is kept in towers-draft-2.ids.'])
        other.look('<escape>2', ['change 1/1'])
        other.leave('qq')
        window.look('u', ['change 0/1'])
    assert room.read(DRAFT) == Draft((PUZZLES[0], '3:///////////,1h'), 0).content


def test_full_disk(front: BoardFront, room: Room) -> None:
    """A draft that can't be kept is told, and each key tries again; leaving asks."""
    with small_disk(room.lay('state'), 1 << 16), Folder('state', room) as disk:
        with front.window(['towers', ID], leave='qq') as window:
            window.look('E<enter>1', ['change 1/1'])
            fill(disk)
            window.look('2', ['change 2/2', 'The draft is not kept: No space left on device.'])
            window.look('q', ['The draft is not kept (No space left on device). Quit and lose it? y/N'])
            window.look('n', ['change 2/2', 'The draft is not kept: No space left on device.'])
            disk.remove('filler')
            window.look('<right>', ['change 2/2'], ['is not kept'])
            assert (disk.read('puzzles/towers-draft.ids') or b'').startswith(b'draft 1, puzzle 3\n')


@pytest.mark.parametrize('game', ['towers', 'unequal'])
@pytest.mark.parametrize('size', range(3, 10))
def test_sizes(front: BoardFront, room: Room, game: str, size: int) -> None:
    """A blank board of each size, and an item in its last corner."""
    lines = f'set {game} {size}\nr{size}c{size} {size}\ncheck\nback\nstatus\n'
    said = run([front.path, '--lines', 'towers', ID], room, input=lines.encode(), env=front.env()).expect().output.decode()
    thing = 'clues' if game == 'towers' else 'signs'
    assert re.search(rf'^0 {thing}, 0 given[.] Type in a printed puzzle[.].*\ngiven {size} in r{size}c{size}; several solutions\n', said, re.MULTILINE)
    assert re.search(rf'^Several solutions. Two of them differ in [0-9]+ of {size * size} squares.\n(r[1-9]c[1-9] [1-9] or [1-9](; |\n))+', said, re.MULTILINE)
    assert said.endswith('playing 1/1\n')
