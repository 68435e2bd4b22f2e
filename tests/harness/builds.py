"""Where the repository is, and copies of programs."""

import os
import shutil
from pathlib import Path
from typing import Tuple

from tests.harness.room import Room

#: The top of the repository, whatever the working folder is.
TOP = Path(__file__).resolve().parent.parent.parent


def copy(room: Room, build: str, name: str) -> str:
    """A copy in a folder whose name has a blank. Every user may run it, and it stays as it is when the program is built again.

    The name is that by which users call it, since a program may go by its name.
    """
    folder = os.path.join(room.path, 'the programs')
    os.makedirs(folder, exist_ok=True)
    os.chmod(folder, 0o755)
    program = shutil.copyfile(build, os.path.join(folder, name))
    os.chmod(program, 0o755)
    return program


def copy_both(room: Room, puzzles: str, objects: str) -> Tuple[str, str]:
    """Copies of both programs, one beside the other. Where they are the same file the second is a link to the first, as users have it."""
    plain = copy(room, puzzles, 'puzzles')
    if not os.path.samefile(puzzles, objects):
        return plain, copy(room, objects, 'puzzles-json')
    link = os.path.join(os.path.dirname(plain), 'puzzles-json')
    os.symlink('puzzles', link)
    return plain, link
