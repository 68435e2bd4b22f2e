"""How the commands begin and end: what each tells of itself, the program that it asks, and its status."""

from __future__ import annotations

import contextlib
import errno
import io
import os
import signal
import sys
from typing import Callable, List, NoReturn, Optional

from playing.choices import Unknown
from playing.files import why
from playing.printable import printable
from playing.program import Gone
from playing.version import ABOVE, about, told

#: Words that ask for help.
HELP = {'--help', '-h'}

#: How the status of a command tells that a signal has ended it.
SIGNALLED = 128


def me() -> str:
    """By which name the command was called."""
    return os.path.basename(sys.argv[0])


def told_of_itself(words: List[str], usage: str, here: str) -> Optional[int]:
    """Tells how the command is used, or its version, and that of the programs, which is the same. The status, where that is all that was asked."""
    if HELP.intersection(words):
        return written(usage.format(me=me()))
    if words in (['--version'], ['-V']):
        return written(about(program(here)))
    return None


def written(text: str) -> int:
    """Writes to standard output. The status: 1, and a line on standard error, where it can't be written."""
    try:
        if sys.stdout is None:
            raise OSError(errno.EBADF, os.strerror(errno.EBADF))
        if isinstance(sys.stdout, io.TextIOWrapper):
            # The name of a file may have what the terminal can't show.
            sys.stdout.reconfigure(errors='backslashreplace')
        sys.stdout.write(text)
        sys.stdout.flush()
    except OSError as error:
        return unwritten(error)
    return 0


def unwritten(error: OSError) -> int:
    """A line on standard error, where standard output can't be written. The status."""
    complain(f'{me()}: standard output: {why(error)}')
    # The rest of the output is not tried again at the end.
    with contextlib.suppress(OSError):
        os.dup2(os.open(os.devnull, os.O_WRONLY), 1)
    return 1


def complain(text: str) -> None:
    """A line on standard error."""
    if sys.stderr:
        print(printable(text), file=sys.stderr)


def refuse(reason: str, then: str = '', usage: str = '') -> int:
    """Says why words can't be read, and what there is to say then; above it, how the command is used, if that is given. The status."""
    if sys.stderr:
        print(usage, end='\n' if usage else '', file=sys.stderr)
    complain(f'{me()}: {reason}')
    if sys.stderr:
        print(then, end='', file=sys.stderr)
    return 2


def with_program(here: str, work: Callable[[str], int], failed: int = 1) -> int:
    """The status of work that needs the path of the program, or the one of a failure; `here` is the folder of the command."""
    path = program(here)
    if path is None:
        complain(f'{me()}: the program is not built yet: run make')
        return failed
    try:
        return work(path)
    except Unknown as unknown:
        return refuse(str(unknown))
    except Gone as gone:
        complain(f'{me()}: the program has ended: {gone}')
        return failed


def program(here: str) -> Optional[str]:
    """The program: the one that PUZZLES_JSON names, that beside the command, or that of the repository where one is ready."""
    path = os.environ.get('PUZZLES_JSON') or os.path.join(here, 'puzzles-json')
    if 'PUZZLES_JSON' not in os.environ and not os.path.isfile(path):
        path = os.path.join(ABOVE, told('ready').strip() or 'build', 'puzzles-json')
    return os.path.abspath(path) if os.path.isfile(path) else None


def end_by_signals() -> None:
    """A signal that ends the command lets it tidy up first."""
    for number in (signal.SIGTERM, signal.SIGHUP):
        signal.signal(number, _end)


def _end(number: int, _: object) -> NoReturn:
    sys.exit(SIGNALLED + number)
