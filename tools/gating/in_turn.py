"""Runs parts one after the other, passes on what they say, and counts their cases."""

from __future__ import annotations

import os
import resource
import signal
import subprocess
import sys
import time
from typing import BinaryIO, List, NamedTuple, Optional, Sequence

from gating.counts import SKIPS_FAIL, Counts, counted, finish, skips_fail


class Said(NamedTuple):
    """The output of a command, and how it ended."""

    text: bytes
    status: int


class Turns:
    """All that is said goes to a log, too, where there is one."""

    def __init__(self, name: str, log: Optional[BinaryIO] = None) -> None:
        self._name = name
        self._log = log
        self._total = Counts()
        self._summary: List[str] = []

    def say(self, text: str) -> None:
        self._pass_on(text.encode() + b'\n')

    def _pass_on(self, text: bytes) -> None:
        sys.stdout.flush()
        sys.stdout.buffer.write(text)
        sys.stdout.buffer.flush()
        self.note(text)

    def note(self, text: bytes) -> None:
        """Says it in the log alone."""
        if self._log:
            self._log.write(text)
            self._log.flush()

    def part(self, name: str, words: Sequence[str]) -> Said:
        """Runs a part, and counts its cases."""
        self.say(f'== {name}')
        begun, used = time.monotonic(), processor_seconds()
        said = self._run(words)
        self._count(name, said, f'{time.monotonic() - begun:.0f} s, and {processor_seconds() - used:.0f} s of a processor')
        return said

    def _run(self, words: Sequence[str]) -> Said:
        """Runs a command without any input, and passes on what it says. A skip is for it what it is here."""
        said: List[bytes] = []
        env = {**os.environ, SKIPS_FAIL: str(int(skips_fail()))}
        try:
            process = subprocess.Popen(words, stdin=subprocess.DEVNULL, stdout=subprocess.PIPE, stderr=subprocess.STDOUT, env=env)
        except OSError as error:
            self.say(str(error))
            return Said(b'', 127)
        assert process.stdout
        descriptor = process.stdout.fileno()
        with process:
            try:
                for piece in iter(lambda: os.read(descriptor, 1 << 16), b''):
                    said.append(piece)
                    self._pass_on(piece)
            except BaseException:
                self.note(b'stopped\n')
                process.terminate()
                raise
        return Said(b''.join(said), process.returncode)

    def _count(self, name: str, said: Said, note: str) -> None:
        """Counts what a part has said, with a note for its line."""
        counts, odd = counted(said.text, said.status)
        if odd:
            self.say(f'FAILED: {odd}')
        self._total = self._total.plus(counts)
        self._summary.append(f'{name}: {counts}; {note}')

    def finish(self) -> int:
        """A line for each part, and then one for all. Gives the status to end with."""
        self.say(f'== {self._name}')
        for line in self._summary:
            self.say(line)
        self.say(f'{processor_seconds() / 60:.1f} minutes of a processor in all')
        self.note(f'{self._total}\n'.encode())
        return finish(self._total)


def clean_up_at_signals() -> None:
    """From now on a signal that ends the process lets it clean up first, after a line that says so. One that is ignored stays so."""
    for number in (signal.SIGINT, signal.SIGTERM, signal.SIGHUP):
        if signal.getsignal(number) != signal.SIG_IGN:
            signal.signal(number, _end)


def _end(number: int, _: object) -> None:
    # Not by print, which may be at work just now.
    os.write(2, f'stopped by {signal.Signals(number).name}\n'.encode())
    sys.exit(128 + number)


def processor_seconds() -> float:
    """The use of processors by all commands that have ended."""
    used = resource.getrusage(resource.RUSAGE_CHILDREN)
    return used.ru_utime + used.ru_stime
