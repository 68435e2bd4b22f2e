"""Folders: one for a case that is gone afterwards, and what is made and read in a folder."""

from __future__ import annotations

import os
import shutil
import stat
import tempfile
from pathlib import Path
from typing import BinaryIO, Callable, List, Optional, Tuple, Union

from _pytest.outcomes import Skipped

Name = Union[str, bytes]
Owner = Tuple[int, int]


class Skip(Skipped):
    """Raised in a case that can't be tried here: the reason, and what would make it possible."""

    def __init__(self, reason: str, remedy: str = '') -> None:
        super().__init__(f'{reason}. To try it: {remedy}' if remedy else reason)


class Folder:
    """An open folder. Its files are reached from there, however long or closed the way to it is."""

    def __init__(self, place: Name, above: Optional[Folder] = None) -> None:
        above_fd: Optional[int] = above.fd if above else None
        self.fd: int = os.open(place, os.O_RDONLY | os.O_DIRECTORY, dir_fd=above_fd)
        #: The way that led here. It may be too long to go, or closed by now.
        self.path: str = os.path.join(above.path if above else '', os.fsdecode(place))

    def close(self) -> None:
        os.close(self.fd)

    def __enter__(self) -> Folder:
        return self

    def __exit__(self, *_: object) -> None:
        self.close()

    def make_folder(self, name: Name, mode: int = 0o755, owner: Optional[Owner] = None) -> Folder:
        """A new folder in this one, open. Its mode is this one, whatever the umask."""
        os.mkdir(name, 0o700, dir_fd=self.fd)
        made = Folder(name, self)
        if owner:
            os.fchown(made.fd, *owner)
        os.fchmod(made.fd, mode)
        return made

    def put(self, name: Name, content: bytes = b'', mode: int = 0o644, owner: Optional[Owner] = None) -> None:
        """Makes a file, or gives it this content. Its mode is this one, whatever the umask."""
        fd = os.open(name, os.O_WRONLY | os.O_CREAT | os.O_TRUNC, 0o600, dir_fd=self.fd)
        with os.fdopen(fd, 'wb') as file:
            if owner:
                os.fchown(fd, *owner)
            os.fchmod(fd, mode)
            file.write(content)

    def lay(self, path: str, make: Callable[[str], object] = os.mkdir) -> str:
        """Makes something at a path from here, with the folders above it, and gives its whole path."""
        whole = os.path.join(self.path, path)
        os.makedirs(os.path.dirname(whole), exist_ok=True)
        make(whole)
        return whole

    def link(self, name: Name, text: Name) -> None:
        """Makes a symbolic link with this text."""
        os.symlink(text, name, dir_fd=self.fd)

    def remove(self, name: Name) -> None:
        os.unlink(name, dir_fd=self.fd)

    def names(self) -> List[str]:
        """The names that lie here, in order."""
        return sorted(os.listdir(self.fd))

    def paths(self) -> List[str]:
        """All that lies here and in the folders below, but those folders themselves, in order."""
        found = [f'{way}/{name}' for way, _, names, _ in os.fwalk('.', dir_fd=self.fd) for name in names]
        return sorted(os.path.normpath(path) for path in found)

    def read(self, name: Name) -> Optional[bytes]:
        """The content of a file, or nothing where there is none. A link is followed."""
        try:
            with self.reader(name) as file:
                return file.read()
        except (FileNotFoundError, NotADirectoryError):
            return None

    def reader(self, name: Name) -> BinaryIO:
        """A file, open for reading. It stays that file when another one takes its name."""
        return os.fdopen(os.open(name, os.O_RDONLY, dir_fd=self.fd), 'rb', buffering=0)

    def status(self, name: Name) -> Optional[os.stat_result]:
        """The facts known of a file, or nothing if there is none. A link is followed."""
        try:
            return os.stat(name, dir_fd=self.fd)
        except (FileNotFoundError, NotADirectoryError):
            return None

    def mode(self, name: Name) -> Optional[int]:
        """The mode of a file, set-id bits too, or nothing where there is none."""
        found = self.status(name)
        return stat.S_IMODE(found.st_mode) if found else None

    def link_text(self, name: Name) -> Optional[str]:
        """The text of a symbolic link, or nothing where none stands."""
        try:
            return os.readlink(os.fsdecode(name), dir_fd=self.fd)
        except OSError:
            return None


class Room(Folder):
    """A new folder that every user may enter, in another one or at the place of rooms. When it is left it is gone, with all that is in it."""

    def __init__(self, above: str = '') -> None:
        super().__init__(tempfile.mkdtemp(prefix='room.', dir=above or place_of_rooms()))
        os.fchmod(self.fd, 0o755)

    def __enter__(self) -> Room:
        return self

    def __exit__(self, *_: object) -> None:
        self.close()
        remove_tree(self.path)


def place_of_rooms() -> str:
    """Where rooms are made: where TMPDIR says, or, where that isn't fit for all tests, at a usual place."""
    own = os.path.abspath(tempfile.gettempdir())
    return next((place for place in (own, '/tmp', '/var/tmp') if is_fit(place)), own)


def is_fit(place: str) -> bool:
    """Whether rooms can be made there: what lies there can be preloaded, and other users may go there, where the test has some."""
    may_all_go = os.geteuid() != 0 or all(os.stat(folder).st_mode & stat.S_IXOTH for folder in [Path(place), *Path(place).parents])
    return can_preload(place) and may_all_go and os.access(place, os.W_OK)


def can_preload(path: str) -> bool:
    """Whether a library there can be preloaded: blanks and colons stand between two of them."""
    return not set(path).intersection(' \t\n:')


def remove_tree(path: str) -> None:
    """Takes away a folder with all that is in it, folders that may not be entered too."""
    for _, folders, _, fd in os.fwalk(path):
        for name in folders:
            if stat.S_ISDIR(os.lstat(name, dir_fd=fd).st_mode):
                os.chmod(name, 0o700, dir_fd=fd)
    shutil.rmtree(path)
