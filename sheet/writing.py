"""Where the page goes: to standard output, or to a file, which has all of it or what it had."""

from __future__ import annotations

import os
import stat
from typing import Optional

from playing import files

STANDARD_OUTPUT = 1


def write(file: Optional[str], content: bytes) -> None:
    """Raises `OSError`."""
    if file is None:
        _write_all(STANDARD_OUTPUT, content)
    elif files.other_than_file(file):
        # A pipe or a device is written as it is; a folder can't be.
        with open(file, 'wb', buffering=0) as stream:
            _write_all(stream.fileno(), content)
    else:
        # A link stays, and leads to the new content.
        target = os.path.realpath(file)
        files.replace(target, content, _mode(target))


def _write_all(descriptor: int, content: bytes) -> None:
    left = memoryview(content)
    while left:
        left = left[os.write(descriptor, left) :]


def _mode(path: str) -> int:
    """That of the file that is there, or that of a new one."""
    try:
        return stat.S_IMODE(os.stat(path).st_mode) & 0o777
    except FileNotFoundError:
        umask = os.umask(0o077)
        os.umask(umask)
        return 0o666 & ~umask
