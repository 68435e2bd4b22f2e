"""A program that reads a line and answers with a time."""

from __future__ import annotations

import os
import selectors
import subprocess
import sys
import time
from pathlib import Path
from typing import List, NamedTuple, Optional

#: The top of the repository, whatever the working folder is.
TOP = Path(__file__).resolve().parent.parent.parent


class Unread(Exception):
    """Raised where a program doesn't answer a line with a time, since it isn't a puzzle. The text says so."""


class Timed(NamedTuple):
    """How long a puzzle took, in nanoseconds, and how many solutions were found. The processor's work for others doesn't count."""

    nanoseconds: int
    solutions: int


class Answering:
    """The program of crates/trial_runs, or another that answers as it does: a line of nanoseconds and a count of solutions for each puzzle.

    It runs from the first question on. Where an answer takes more seconds of the processor than the limit, or a hundred times as many by the
    clock, it is killed, and begun again at the next question.
    """

    def __init__(self, words: List[str], limit: float) -> None:
        self.limit = limit
        self._words = words
        self._process: Optional[subprocess.Popen[bytes]] = None

    def __enter__(self) -> Answering:
        return self

    def __exit__(self, *_: object) -> None:
        self.stop()

    def ask(self, line: str) -> Optional[Timed]:
        """The answer to a puzzle, or nothing where it doesn't come in time."""
        process = self._process or self._begin()
        stdin, stdout = process.stdin, process.stdout
        assert stdin and stdout
        before = processor_time(process.pid)
        stdin.write(line.encode() + b'\n')
        if not self._answers(process, before):
            self.stop()
            return None
        answer = stdout.readline().split()
        if len(answer) != 2 or not all(word.isdigit() for word in answer):
            self.stop()
            raise Unread(f'cannot read {line}')
        nanoseconds, solutions = map(int, answer)
        return Timed(min(nanoseconds, processor_time(process.pid) - before or nanoseconds), solutions)

    def _answers(self, process: subprocess.Popen[bytes], before: int) -> bool:
        """Whether an answer comes in time. `before` is the process's time at the question."""
        assert process.stdout
        end = time.monotonic() + 100 * self.limit
        left = self.limit
        with selectors.DefaultSelector() as selector:
            selector.register(process.stdout, selectors.EVENT_READ)
            while left > 0:
                if selector.select(left):
                    return True
                used = (processor_time(process.pid) - before) / 1e9 if before else self.limit
                left = min(self.limit - used, end - time.monotonic())
        return False

    def _begin(self) -> subprocess.Popen[bytes]:
        process = subprocess.Popen(self._words, stdin=subprocess.PIPE, stdout=subprocess.PIPE, bufsize=0)
        self._process = process
        return process

    def stop(self) -> None:
        """Ends it, until the next question."""
        if self._process:
            self._process.kill()
            self._process.communicate()
            self._process = None


def processor_time(process: int) -> int:
    """The nanoseconds that a process has had a processor for; 0 where the system doesn't tell."""
    try:
        return int(Path(f'/proc/{process}/schedstat').read_text(encoding='ascii').split()[0])
    except (OSError, ValueError, IndexError):
        return 0


def solver(word: str, limit: float) -> Answering:
    """Our own program with a word: `each`, or `each-listing` for lists of solutions. BENCH names another build of it."""
    program = os.environ.get('BENCH') or str(TOP / 'crates' / 'trial_runs' / 'out' / 'trial_runs')
    if not os.path.isfile(program):
        sys.exit(f'{program} is not built yet; make bench builds it')
    return Answering([program, word], limit)
