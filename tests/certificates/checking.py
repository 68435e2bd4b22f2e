"""The two checkers, as commands over files."""

import importlib.util
import shutil
import sys
from typing import Any, Mapping, Optional, Tuple

from tests.harness import TOP, Ended, Room, Skip, run

PYTHON, NODE = TOP / 'certificate' / 'verify.py', TOP / 'certificate' / 'verify.mjs'


def node() -> str:
    path = shutil.which('node') or shutil.which('nodejs')
    if not path:
        raise Skip('there is no node')
    return path


def module() -> Any:
    """The checker in Python, as a module."""
    spec = importlib.util.spec_from_file_location('verify', PYTHON)
    assert spec and spec.loader
    found = importlib.util.module_from_spec(spec)
    spec.loader.exec_module(found)
    return found


def both(room: Room, *names: str, limits: Optional[Mapping[int, int]] = None) -> Tuple[Ended, Ended]:
    """The answers of the two commands on files; that of Python may have limits."""
    seconds = 3600
    return run([sys.executable, '-I', str(PYTHON), *names], room, seconds=seconds, limits=limits), run([node(), str(NODE), *names], room, seconds=seconds)
