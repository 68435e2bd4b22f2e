"""Python's compiled form of scripts that are started hundreds of times: kept for one run, outside of the tree."""

import compileall
import os
import shutil
import sys
import tempfile
from typing import Callable, Dict

from tests.harness.builds import TOP

#: The variable by which Python finds it.
PREFIX = 'PYTHONPYCACHEPREFIX'


def compile_scripts() -> Callable[[], None]:
    """Begins it, and gives what takes it away."""
    folder = tempfile.mkdtemp(prefix='bytecode.')
    os.chmod(folder, 0o755)
    os.environ[PREFIX] = sys.pycache_prefix = folder
    for package in ('board', 'check', 'page', 'playing', 'sheet'):
        compileall.compile_dir(TOP / package, quiet=2)
    return lambda: shutil.rmtree(folder, ignore_errors=True)


def bytecode() -> Dict[str, str]:
    """The part of a script's environment that names it."""
    return {PREFIX: os.environ[PREFIX]} if PREFIX in os.environ else {}
