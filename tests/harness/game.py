"""A small game of Towers, what its saves are, and the new files that saves leave; and larger puzzles, which the usual program made."""

import os
import re
from typing import Iterable, List, Optional

from tests.harness.builds import TOP
from tests.harness.room import Folder

ID = '3:3//////3/////'

#: Its board at the start, as `show` writes it.
PICTURE = b'+ 3 - - +\n3 . . . -\n- . . . -\n- . . . -\n+ - - - +\n'

MOVES = [b'R0,0,1', b'R1,0,2', b'R2,0,3']

#: The records ahead of the states.
HEAD = (
    b"SAVEFILE:41:Simon Tatham's Portable Puzzle Collection\nVERSION :1:1\nGAME    :6:Towers\n"
    b'PARAMS  :1:3\nCPARAMS :1:3\nDESC    :13:3//////3/////\n'
)

#: The name of a new file that stands for a moment beside the one that it replaces.
NEW_NAME = re.compile(r'\.puzzles\.[0-9a-f]{16}\.tmp')


def save_text(moves: int, position: Optional[int] = None) -> bytes:
    """The save of the game in which so many moves were made, at this position, or at the last one."""
    count = moves + 1
    states = b'NSTATES :1:%d\nSTATEPOS:1:%d\n' % (count, count if position is None else position)
    return HEAD + states + b''.join(b'MOVE    :6:%s\n' % move for move in MOVES[:moves])


def moves_of(save: Optional[bytes]) -> List[bytes]:
    """Those of a save, the undone ones among them."""
    return re.findall(rb'^MOVE    :.:(.*)$', save or b'', re.MULTILINE)


def told_left(paths: Iterable[str]) -> str:
    """The lines on standard error about new files that were left at these paths, seen from where the program runs."""
    return ''.join(f'the save is in ./{path}\n' for path in paths)


def left_files(folder: Folder) -> List[str]:
    """The paths of new files that a save left here, or in a folder below."""
    return [path for path in folder.paths() if os.path.basename(path).startswith('.puzzles.')]


def made(game: str, size: int, letters: str) -> List[str]:
    """The IDs of all puzzles of bench/puzzles.txt of a size and of these grades."""
    lines = [line.split() for line in (TOP / 'bench' / 'puzzles.txt').read_text(encoding='ascii').splitlines() if not line.startswith('#')]
    return [params + id[1:] for of, params, id in lines if of == game and params in [f'{size}d{letter}' for letter in letters]]
