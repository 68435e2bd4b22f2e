"""One run of a program."""

from __future__ import annotations

import os
import resource
import signal
import subprocess
import tempfile
import time
from typing import Callable, Dict, Mapping, NamedTuple, Optional, Sequence, Union

from tests.harness.bytecode import bytecode
from tests.harness.room import Folder
from tests.harness.users import User

Word = Union[str, bytes]

#: The signals that may be ignored around the tests, as in a job in the background or after nohup: no program that they start is to begin so.
USUAL = (signal.SIGINT, signal.SIGQUIT, signal.SIGHUP, signal.SIGTERM)

#: So many times as long as on a PC everything may take, as by qemu.
SLOWNESS = float(os.environ.get('SLOWNESS', '1'))


class Ended(NamedTuple):
    """How a run ended, and what it wrote. A status below 0 is the signal that ended it."""

    status: int
    output: bytes
    error: bytes

    @property
    def said(self) -> str:
        """All that it wrote."""
        return (self.output + self.error).decode(errors='replace')

    def expect(self, *says: str, status: int = 0) -> Ended:
        """It ended with this status, and wrote these texts somewhere."""
        assert self.status == status, self.said[-600:]
        for text in says:
            assert text in self.said
        return self


def eventually(holds: Callable[[], object], seconds: float = 300) -> bool:
    """Whether something comes to hold in time."""
    end = time.monotonic() + seconds * SLOWNESS
    while not holds() and time.monotonic() < end:
        time.sleep(0.02)
    return bool(holds())


def are_usual() -> bool:
    return not any(signal.getsignal(number) is signal.SIG_IGN for number in USUAL)


def make_usual() -> None:
    """Before a program is started: these signals end it, unless it does otherwise."""
    for number in USUAL:
        signal.signal(number, signal.SIG_DFL)


def run(  # pylint: disable=too-many-arguments
    words: Sequence[Word],
    folder: Folder,
    *,
    input: bytes = b'',
    umask: int = 0o022,
    user: Optional[User] = None,
    env: Optional[Mapping[str, str]] = None,
    limits: Optional[Mapping[int, int]] = None,
    ignored: Sequence[signal.Signals] = (),
    stdin: Optional[int] = None,
    stdout: int = subprocess.PIPE,
    stderr: int = subprocess.PIPE,
    kept: Sequence[int] = (),
    closed: Sequence[int] = (),
    seconds: float = 600,
) -> Ended:
    """Runs a program in a folder until it ends. The first word is where it lies.

    The input comes from a file, or from the descriptor `stdin`. Output to a descriptor `stdout` or `stderr` is not among what
    it wrote. It has the open descriptors `kept` under their own numbers, and no descriptors `closed`. Each of `limits` is the
    most of a resource of the module of that name.
    """

    def begin() -> None:
        make_usual()
        for number in ignored:
            signal.signal(number, signal.SIG_IGN)
        for what, most in (limits or {}).items():
            resource.setrlimit(what, (most, most))
        for fd in closed:
            os.close(fd)
        if user:
            user.become()

    # A process is started much sooner where nothing is to be done in it first.
    is_plain = are_usual() and not (ignored or limits or closed or user)
    environment: Dict[str, str] = {'LC_ALL': 'C', 'PATH': os.environ.get('PATH', ''), **bytecode(), **(env or {})}
    with tempfile.TemporaryFile() as file:
        file.write(input)
        file.seek(0)
        old_umask = os.umask(umask)
        process = subprocess.Popen(
            words,
            cwd=f'/proc/self/fd/{folder.fd}',
            stdin=file if stdin is None else stdin,
            stdout=stdout,
            stderr=stderr,
            env=environment,
            pass_fds=tuple(kept),
            preexec_fn=None if is_plain else begin,
        )
        os.umask(old_umask)
    try:
        output, error = process.communicate(timeout=seconds * SLOWNESS)
    except BaseException:
        process.kill()
        process.communicate()
        raise
    return Ended(process.returncode, output or b'', error or b'')
