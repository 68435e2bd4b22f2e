"""The run: what is asked of each puzzle, what is told of it, and the status."""

from __future__ import annotations

import signal
import sys
from functools import partial
from io import TextIOWrapper
from typing import List

from check.asking import Asking, Misread
from check.certificates import Certificates, Unwritten
from check.reading import entries
from check.telling import Telling
from check.words import USAGE, Asked, Wrong, read
from playing.command import SIGNALLED, complain, end_by_signals, me, refuse, told_of_itself, unwritten, with_program

#: The statuses, as USAGE says.
ALL_ONE, NOT_ALL_ONE, UNREAD, FAILED, NOT_CERTIFIED = range(5)


def main(words: List[str], here: str) -> int:
    """Checks puzzles; `here` is the folder of the command. The status is 0 to 4, as USAGE says, or 128 and the number of a signal."""
    status = told_of_itself(words, USAGE, here)
    if status is not None:
        return FAILED if status else ALL_ONE
    try:
        asked = read(words)
    except Wrong as wrong:
        return refuse(str(wrong), f"'{me()} --help' lists all options.\n")
    try:
        return with_program(here, partial(check, asked=asked), FAILED)
    except Unwritten as why:
        complain(f'{me()}: {why}')
        return FAILED
    except OSError as error:
        unwritten(error)
        return FAILED
    except KeyboardInterrupt:
        return SIGNALLED + signal.SIGINT


def check(path: str, asked: Asked) -> int:
    """Raises `Gone`, or `OSError` or `Unwritten` where the output or the certificates can't be written."""
    end_by_signals()
    if isinstance(sys.stdout, TextIOWrapper):
        # The name of a file may have what the output can't show.
        sys.stdout.reconfigure(errors='backslashreplace')
    status = ALL_ONE
    asking, telling = Asking(path, asked), Telling(asked)
    with asking, telling, Certificates(path, asked, telling.beat) as certificates:
        for file in asked.files:
            answered = came = 0
            for some in entries(file):
                came += len(some)
                telling.progress(file, answered, came)
                for told in asking.told(some):
                    answered += 1
                    if isinstance(told, Misread):
                        telling.misread(told)
                        status = max(status, UNREAD)
                    else:
                        certified = certificates.of(told)
                        telling.found(told, certified)
                        is_lacking = certified is not None and certified.suppositions is None
                        status = max(status, NOT_CERTIFIED if is_lacking else ALL_ONE if told.completable == 'one' else NOT_ALL_ONE)
                    telling.progress(file, answered, came)
    return status
