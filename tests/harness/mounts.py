"""Mounts for a case: a file that is mounted alone, and a disk that is soon full."""

import contextlib
import ctypes
import os
from typing import Iterator, Optional

from tests.harness.room import Folder, Skip
from tests.harness.skips import AS_ROOT

CLONE_NEWNS = 0x00020000
MS_BIND, MS_REC, MS_PRIVATE = 0x1000, 0x4000, 0x40000
MNT_DETACH = 2

libc = ctypes.CDLL(None, use_errno=True)

# Why nothing can be mounted.
_no_mounts = 'the test has not begun'


def own_mounts() -> None:
    """Nobody else sees the mounts of this process from here on, and they are gone when the process has ended."""
    global _no_mounts
    try:
        answer(libc.unshare(CLONE_NEWNS))
        answer(libc.mount(b'none', b'/', None, ctypes.c_ulong(MS_REC | MS_PRIVATE), None))
        _no_mounts = ''
    except OSError as error:
        _no_mounts = f'nothing can be mounted: {error.strerror}'


def answer(status: int, what: Optional[str] = None) -> None:
    """Raises the error of a call of the C library, where it failed."""
    if status != 0:
        number = ctypes.get_errno()
        raise OSError(number, os.strerror(number), what)


@contextlib.contextmanager
def bound_file(source: str, target: str) -> Iterator[None]:
    """While this lasts, one file is mounted alone over another."""
    with _mounted(source, target, None, MS_BIND, None):
        yield


@contextlib.contextmanager
def small_disk(target: str, size: int) -> Iterator[None]:
    """While this lasts, an empty disk with so many bytes lies at a folder."""
    with _mounted('none', target, 'tmpfs', 0, f'size={size}'):
        yield


@contextlib.contextmanager
def disk_in_memory(target: str) -> Iterator[None]:
    """While this lasts, an empty disk in memory lies at a folder. Where nothing can be mounted the folder stays as it is."""
    with contextlib.ExitStack() as stack:
        if not _no_mounts:
            stack.enter_context(_mounted('none', target, 'tmpfs', 0, 'mode=755'))
        yield


def fill(disk: Folder) -> None:
    """Makes a file `filler` that takes what room there is on a small disk."""
    with contextlib.suppress(OSError):
        disk.put('filler', bytes(1 << 24))


@contextlib.contextmanager
def _mounted(source: str, target: str, kind: Optional[str], flags: int, data: Optional[str]) -> Iterator[None]:
    if _no_mounts:
        raise Skip(_no_mounts, f'{AS_ROOT}; a container must be allowed to mount')
    words = [None if word is None else os.fsencode(word) for word in (source, target, kind, data)]
    answer(libc.mount(words[0], words[1], words[2], ctypes.c_ulong(flags), words[3]), target)
    try:
        yield
    finally:
        libc.umount2(words[1], MNT_DETACH)
