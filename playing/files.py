"""Files that the board reads, makes and locks.

Only regular files are opened, and none is waited for. A new file is whole before it has its name, and no link that lies in its way is followed.
"""

from __future__ import annotations

import contextlib
import fcntl
import os
import pwd
import stat
from enum import Enum
from typing import Iterator, List, NamedTuple, Optional, Tuple

#: The bytes that a save may have, as the program has it.
MOST_BYTES = 16_777_216

#: How a file is opened for reading. A pipe or a device that took its name a moment ago is not waited for either.
READING = os.O_RDONLY | os.O_NONBLOCK | os.O_NOCTTY | os.O_CLOEXEC

#: How a file is made that nobody else has, and how one is locked.
MAKING = os.O_WRONLY | os.O_CREAT | os.O_EXCL | os.O_NOFOLLOW | os.O_CLOEXEC
LOCKING = os.O_RDWR | os.O_CREAT | os.O_NOFOLLOW | os.O_NONBLOCK | os.O_NOCTTY | os.O_CLOEXEC

#: Words for a thing that isn't a regular file, by its type.
OTHERS = {
    stat.S_IFDIR: 'is a folder',
    stat.S_IFIFO: 'is a named pipe',
    stat.S_IFSOCK: 'is a socket',
    stat.S_IFCHR: 'is a device',
    stat.S_IFBLK: 'is a device',
    stat.S_IFLNK: 'is a link',
}
DANGLING = 'is a link to nothing'


class Kind(Enum):
    """The outcome of reading a file."""

    READ = 'read'
    ABSENT = 'absent'
    UNREADABLE = 'unreadable'
    OTHER = 'no regular file'
    TOO_LARGE = 'too large'


class Found(NamedTuple):
    """The finding under the name of a file."""

    kind: Kind
    content: bytes = b''
    #: Words after its name, if something is there that wasn't read.
    why: str = ''

    @property
    def is_closed(self) -> bool:
        """Whether something is there that wasn't read."""
        return self.kind not in (Kind.READ, Kind.ABSENT)


class NoFile(OSError):
    """Something else than a regular file. The text says what."""


def read(path: str, most: int = MOST_BYTES) -> Found:
    """The bytes of a regular file, of so many bytes at most."""
    try:
        with _opened(path) as descriptor:
            content = _content(descriptor, most + 1)
    except (FileNotFoundError, NotADirectoryError):
        return Found(Kind.OTHER, why=DANGLING) if os.path.islink(path) else Found(Kind.ABSENT)
    except NoFile as other:
        return Found(Kind.OTHER, why=str(other))
    except (OSError, ValueError) as error:
        return Found(Kind.UNREADABLE, why=f"can't be read ({why(error)}{_whose(path)})")
    if len(content) > most:
        return Found(Kind.TOO_LARGE, why=f'has more than {most:,} bytes')
    return Found(Kind.READ, content)


def begins(path: str, content: bytes) -> bool:
    """Whether a regular file begins with these bytes."""
    try:
        with _opened(path) as descriptor:
            return _content(descriptor, len(content)) == content
    except (OSError, ValueError):
        return False


def expect_file(found: os.stat_result) -> None:
    """Raises `NoFile` for all but a regular file."""
    if not stat.S_ISREG(found.st_mode):
        raise NoFile(OTHERS.get(stat.S_IFMT(found.st_mode), 'is not a file'))


def other_than_file(path: str) -> str:
    """Words for the thing in place of a file; nothing where it is one, or a new one may be made there. A link is followed."""
    try:
        expect_file(os.stat(path))
    except NoFile as other:
        return str(other)
    except (OSError, ValueError):
        pass
    return ''


def replace(path: str, content: bytes, mode: int = 0o600) -> None:
    """The file has all of the content from here on, and this mode, or is as it was. Raises `OSError`."""
    new = _written(os.path.dirname(path), content, mode)
    try:
        os.replace(new, path)
    except BaseException:
        _remove(new)
        raise


def make(path: str, content: bytes) -> bool:
    """A new file has all of the content; False where something has its name. Raises `OSError`."""
    new = _written(os.path.dirname(path), content)
    try:
        os.link(new, path)
    except FileExistsError:
        return False
    except OSError:
        # A disk on which no file has two names.
        if os.path.lexists(path):
            return False
        os.rename(new, path)
    finally:
        _remove(new)
    return True


def make_folder(path: str) -> None:
    """Makes a folder that only the player may enter, where there is none. Raises `OSError`."""
    try:
        os.makedirs(path, 0o700, exist_ok=True)
    except FileExistsError as error:
        raise NoFile(_instead_of_folder(path)) from error


def lock(path: str) -> Optional[int]:
    """Locks a file, which is made where there is none; nothing where another has locked it. Raises `OSError` where it can't be opened."""
    if os.path.lexists(path):
        expect_file(os.lstat(path))
    descriptor = os.open(path, LOCKING, 0o600)
    try:
        expect_file(os.fstat(descriptor))
        fcntl.flock(descriptor, fcntl.LOCK_EX | fcntl.LOCK_NB)
    except BlockingIOError:
        os.close(descriptor)
        return None
    except NoFile:
        os.close(descriptor)
        raise
    except OSError:
        # No file can be locked there: then the windows have to see to it.
        pass
    return descriptor


def names_in(folder: str) -> Tuple[List[str], str]:
    """The names in a folder, if there is one; and words after its name, if they can't be told."""
    try:
        return os.listdir(folder), ''
    except OSError as error:
        if not os.path.lexists(folder):
            return [], ''
        return [], f"can't be read ({why(error)}{_whose(folder)})" if os.path.isdir(folder) else _instead_of_folder(folder)


def why(error: Exception) -> str:
    """The reason of a failure, in words."""
    return str(error.strerror or error) if isinstance(error, OSError) else str(error)


@contextlib.contextmanager
def _opened(path: str) -> Iterator[int]:
    """A regular file, open for reading. Raises `OSError`, or `ValueError` where no file can have that name."""
    expect_file(os.stat(path))
    descriptor = os.open(path, READING)
    try:
        expect_file(os.fstat(descriptor))
        yield descriptor
    finally:
        os.close(descriptor)


def _content(descriptor: int, most: int) -> bytes:
    """So many bytes, or all where there are fewer."""
    pieces: List[bytes] = []
    while most > 0:
        piece = os.read(descriptor, min(most, 1 << 20))
        if not piece:
            break
        pieces.append(piece)
        most -= len(piece)
    return b''.join(pieces)


def _written(folder: str, content: bytes, mode: int = 0o600) -> str:
    """The path of a new file that has this content on the disk. Nobody can know its name beforehand."""
    new = os.path.join(folder, f'.puzzles.{os.urandom(8).hex()}.tmp')
    descriptor = os.open(new, MAKING, 0o600)
    try:
        with open(descriptor, 'wb') as file:
            file.write(content)
            file.flush()
            os.fchmod(file.fileno(), mode)
            os.fsync(file.fileno())
    except BaseException:
        _remove(new)
        raise
    return new


def _remove(path: str) -> None:
    with contextlib.suppress(OSError):
        os.unlink(path)


def _instead_of_folder(path: str) -> str:
    """Words for the thing in place of a folder."""
    return other_than_file(path) or ('is a file' if os.path.exists(path) else DANGLING)


def _whose(path: str) -> str:
    """Whose a file is that isn't the player's own."""
    try:
        owner = os.stat(path).st_uid
    except (OSError, ValueError):
        return ''
    if owner == os.geteuid():
        return ''
    try:
        return f"; it is {pwd.getpwuid(owner).pw_name}'s"
    except KeyError:
        return f"; it is user {owner}'s"
