"""A program in a terminal of its own: what is typed to it, and what then stands on its screen."""

from __future__ import annotations

import codecs
import contextlib
import fcntl
import os
import re
import signal
import sys
import termios
import time
from typing import Callable, Dict, List, Mapping, Optional, Pattern, Sequence, Tuple

import pexpect

from tests.harness.program import SLOWNESS, make_usual
from tests.harness.screen import Screen, Stream
from tests.harness.users import User

#: Lines and columns. A line that is typed is never too long for it.
SIZE = (50, 250)

#: Keys by their names in `<..>`, as terminals send them.
NAMED: Dict[str, str] = {
    'up': '\x1bOA',
    'down': '\x1bOB',
    'right': '\x1bOC',
    'left': '\x1bOD',
    'enter': '\r',
    'escape': '\x1b',
    'backspace': '\x7f',
    'delete': '\x1b[3~',
    'ctrl-z': '\x1a',
    'ctrl-r': '\x12',
    'ctrl-c': '\x03',
    'ctrl-d': '\x04',
    'ctrl-v': '\x16',
    'space': ' ',
    'tab': '\t',
    'shift-tab': '\x1b[Z',
}

KEY = re.compile(r'<([a-z-]+)>|(.)', re.DOTALL)


class Terminal:
    """The program runs from the beginning of a `with` to its end. The environment has these variables and no others."""

    def __init__(
        self,
        words: Sequence[str],
        env: Mapping[str, str],
        size: Tuple[int, int] = SIZE,
        *,
        cwd: str,
        user: Optional[User] = None,
        seconds: float = 300,
    ) -> None:
        def begin() -> None:
            make_usual()
            if user:
                # As a login does: the terminal is the user's.
                os.fchown(0, *user.owner)
                user.become()

        self._seconds = seconds * SLOWNESS
        self._folder = cwd
        self.screen = Screen(*size)
        self._stream = Stream(self.screen)
        self._decoder = codecs.getincrementaldecoder('utf-8')(errors='replace')
        self.pressed = 0
        self.is_left = False
        #: All that came, for what a screen doesn't show.
        self.came = b''
        # A command alone would be cut at its blanks.
        self._child = pexpect.spawn('/usr/bin/env', list(words), cwd=cwd, env=dict(env), dimensions=size, preexec_fn=begin)
        self._child.delaybeforesend = None

    def __enter__(self) -> Terminal:
        return self

    def __exit__(self, *_: object) -> None:
        if self._child.isalive():
            self._child.kill(signal.SIGKILL)
            self._child.wait()
        self.close()

    @property
    def pid(self) -> int:
        return int(self._child.pid)

    @property
    def shown(self) -> str:
        """All that was shown, without CR."""
        return self.came.decode(errors='replace').replace('\r', '')

    # --- what is typed ---

    def press(self, keys: str) -> None:
        """Presses keys, one after the other, and doesn't wait for what comes of it."""
        for name, character in KEY.findall(keys):
            self.send(NAMED[name] if name else character)

    def send(self, text: str) -> None:
        """Sends what a terminal sends for one key."""
        self.pressed += 1
        with contextlib.suppress(OSError):
            self._child.send(text.encode())

    def click(self, line: int, column: int, button: int) -> None:
        """Presses a button of the mouse, 0 the left one and 2 the right one, in the way that the front has asked for."""
        if b'1006' in self.came:
            self.send(f'\x1b[<{button};{column + 1};{line + 1}M\x1b[<{button};{column + 1};{line + 1}m')
        else:
            self.send(''.join(f'\x1b[M{chr(32 + code)}{chr(33 + column)}{chr(33 + line)}' for code in (button, 3)))

    def resize(self, size: Tuple[int, int]) -> None:
        self.screen.resize(*size)
        self._child.setwinsize(*size)

    def unread(self) -> int:
        """How many bytes were typed that the program hasn't read yet, where it reads each by itself."""
        with open(f'/proc/{self.pid}/fd/0', 'rb', buffering=0, opener=lambda path, flags: os.open(path, flags | os.O_NOCTTY)) as terminal:
            return int.from_bytes(fcntl.ioctl(terminal, termios.FIONREAD, bytes(4)), sys.byteorder)

    def signal(self, number: signal.Signals) -> None:
        self._child.kill(number)

    def close(self) -> None:
        """Closes the window, as one does with a mouse."""
        self._child.ptyproc.fileobj.close()

    # --- what comes of it ---

    def look(self, keys: str, shows: Sequence[str] = (), hides: Sequence[str] = (), styles: Sequence[Tuple[str, Sequence[int]]] = ()) -> None:
        """Presses the keys, and waits until texts are seen, on one line each or across several, and others aren't. Of a text on the screen come the numbers
        of its attributes, below 0 those of attributes that it hasn't. FOLDER is the folder in which the program runs."""
        owed = [text.replace('FOLDER', self._folder) for text in shows]
        self.press(keys.replace('FOLDER', self._folder))
        self.wait_until(lambda screen: all(stands(screen, text) for text in owed) and not any(stands(screen, text) for text in hides))
        there = '\n'.join(self.screen.text())
        for text in owed:
            assert stands(self.screen, text), f'{text!r} is lacking:\n{there}'
        for text in hides:
            assert not stands(self.screen, text), f'{text!r} is shown:\n{there}'
        for text, numbers in styles:
            found = self.screen.style_of(text)
            assert all((abs(number) in found) is (number > 0) for number in numbers), f'{text!r} has the attributes {sorted(found)}'

    def wait_until(self, holds: Callable[[Screen], bool], seconds: Optional[float] = None) -> bool:
        """Waits until something holds of the screen. False where it hasn't in time, or the program has ended before."""
        end = time.monotonic() + (self._seconds if seconds is None else seconds)
        while not holds(self.screen):
            if not self._read(end - time.monotonic()):
                return holds(self.screen)
        return True

    def reads(self, text: List[str], start: int = 0) -> bool:
        """Whether the lines of the screen from one on come to be these in time."""
        return self.wait_until(lambda screen: screen.text()[start : start + len(text)] == text)

    def wait_for(self, prompt: Pattern[str], start: int = 0) -> str:
        """The text shown from a place on, up to a prompt ahead of the cursor, or to the end of the program."""

        def is_there(screen: Screen) -> bool:
            while len(self.shown) > start and prompt.fullmatch(screen.display[screen.cursor.y][: screen.cursor.x]):
                if not self._read(0.02):
                    return True
            return False

        self.wait_until(is_there)
        return self.shown[start:]

    def answer(self, line: str, prompt: Pattern[str]) -> str:
        """Types a line, and gives what is shown then."""
        start = len(self.shown)
        self.send(f'{line}\n')
        return self.wait_for(prompt, start)

    def status(self) -> Optional[int]:
        """How the program ends; nothing where it doesn't in time."""
        end = time.monotonic() + self._seconds
        while self._read(end - time.monotonic()):
            pass
        while self._child.isalive():
            if time.monotonic() > end:
                return None
            time.sleep(0.01)
        return -int(self._child.signalstatus) if self._child.signalstatus else int(self._child.exitstatus)

    def leave(self, keys: str, status: int = 0) -> None:
        """Presses the keys that end the program, which has to end with this status."""
        self.is_left = True
        self.press(keys)
        assert self.status() == status, f'the status after {keys!r}'

    def programs(self) -> List[int]:
        """The processes that the program has started."""
        with open(f'/proc/{self.pid}/task/{self.pid}/children', encoding='ascii') as file:
            return [int(number) for number in file.read().split()]

    def _read(self, seconds: float) -> bool:
        """Reads what has come. False where nothing came in time, or nobody writes any more."""
        try:
            came = self._child.read_nonblocking(1 << 16, max(0.0, seconds))
        except (pexpect.TIMEOUT, pexpect.EOF, ValueError, OSError):
            return False
        self.came += came
        self._stream.feed(self._decoder.decode(came))
        return True


def stands(screen: Screen, text: str) -> bool:
    """Whether a text stands on the screen: on one line, or broken into lines, whole ones or those at the side of a board."""
    lines = screen.text()
    if any(text in line for line in lines) or text in ' '.join(' '.join(lines).split()):
        return True
    # The side is narrow, and may break long words.
    return any(''.join(text.split()) in ''.join(part.split()) for part in sides(lines))


def sides(lines: Sequence[str]) -> List[str]:
    """The text right of each column that is blank from top to bottom, after the board's own lines."""
    edge = max(line.rfind(sign) for line in lines for sign in '│|') + 1
    columns = [column for column in range(edge, max(map(len, lines))) if all(line[column : column + 1] in ('', ' ') for line in lines)]
    return [''.join(line[column:] for line in lines) for column in columns]
