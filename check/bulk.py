"""Many lines at once for a run of the program."""

from __future__ import annotations

import contextlib
import os
import threading
from typing import Iterator, Optional, Sequence

from playing.program import Program, next_of


class Bulk(Program):
    """A run of the program that is sent lines while its answers are read, so that neither waits for the other."""

    _sender: Optional[threading.Thread] = None

    def send(self, lines: Sequence[str]) -> None:
        """Sends some lines, none of them empty. `answers` gives what is answered, which is to be read before more are sent."""
        if self._sender:
            self._sender.join()
        content = ''.join(f'{line}\n' for line in lines).encode()
        # The thread has a descriptor of its own, which is open as long as it writes.
        self._sender = threading.Thread(target=_write, args=(os.dup(self._input.fileno()), content), daemon=True)
        self._sender.start()

    def answers(self, count: int) -> Iterator[bytes]:
        """The answers to the lines that were sent, of which there are so many. Raises `Gone`."""
        last = b''
        while count:
            came = next_of(self._output, None)
            if not came:
                self._end()
            *lines, last = (last + came).split(b'\n')
            count -= len(lines)
            yield from lines


def _write(descriptor: int, content: bytes) -> None:
    """Writes all of it. If the program has ended, its answers end, too, and that is told."""
    left = memoryview(content)
    with contextlib.suppress(OSError):
        while left:
            left = left[os.write(descriptor, left) :]
    os.close(descriptor)
