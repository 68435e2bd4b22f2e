"""Users whom a program can be run as, where the test is root's."""

import os
from typing import NamedTuple, Optional, Tuple

from tests.harness.room import Owner, Skip
from tests.harness.skips import AS_ROOT


class User(NamedTuple):
    """A user, a group that is his first, and the others."""

    uid: int
    gid: int
    groups: Tuple[int, ...] = ()

    @property
    def owner(self) -> Owner:
        """Whose a file is that he makes."""
        return self.uid, self.gid

    def become(self) -> None:
        """Makes this process one of the user's, for good."""
        os.setgroups(self.groups)
        os.setgid(self.gid)
        os.setuid(self.uid)


#: Two users who share a group, one who doesn't, and a second group of Anna's. The numbers are most likely nobody's.
GAMES, CHESS = 60100, 60101
ANNA = User(60001, 60001, (GAMES, CHESS))
BERT = User(60002, 60002, (GAMES,))
CARL = User(60003, 60003)


def is_root() -> bool:
    return os.geteuid() == 0


def plain_user() -> Optional[User]:
    """A user who isn't root: another one where the test is root's, or else the test's own, for whom nothing is said."""
    return ANNA if is_root() else None


def need_root() -> None:
    """Skips the case where this isn't root."""
    if not is_root():
        raise Skip('neither root, nor root of a namespace with other users', AS_ROOT)
