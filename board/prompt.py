"""A line typed at a prompt, with editing and history where there is `readline`."""

from __future__ import annotations

import contextlib
import os
import signal
import sys
import termios
from typing import Iterator, Optional, Protocol, Sequence

from board.file_names import names_after
from playing.command import end_by_signals
from playing.kept_game import AGAIN, KeptGame
from playing.printable import printable

try:
    import readline
except ImportError:
    HAS_READLINE = False
else:
    HAS_READLINE = True

#: Commands after which comes the name of a file.
FILE_COMMANDS = ('load', 'save')

#: The signals that end the line mode from outside.
ENDING = (signal.SIGHUP, signal.SIGTERM)

#: No key interrupts.
NO_KEY = b'\0'


@contextlib.contextmanager
def tried_again(games: Sequence[KeptGame]) -> Iterator[None]:
    """Each second of this those that aren't kept are tried to be kept once more."""

    def again(*_: object) -> None:
        for game in games:
            game.keep_again()
        begin()

    def begin() -> None:
        # Not before the last time is over.
        if not all(game.is_kept for game in games):
            signal.setitimer(signal.ITIMER_REAL, AGAIN)

    signal.signal(signal.SIGALRM, again)
    begin()
    try:
        yield
    finally:
        # One that is on its way does nothing.
        signal.signal(signal.SIGALRM, lambda *_: None)
        signal.setitimer(signal.ITIMER_REAL, 0)


class Asking(Protocol):
    """Where lines come from."""

    #: Whether somebody types them.
    is_typed: bool

    def stopped(self) -> bool:
        """Whether the player has said since this was asked last that nobody waits any longer."""

    def read(self, text: str) -> Optional[str]:
        """A line, after this text; nothing at the end of the input."""

    def leave(self) -> None:
        """Another face of the board may use the terminal."""


class Pipe:
    """Lines of a file or of another program: there is no prompt, and a question is a line."""

    is_typed = False

    def __init__(self) -> None:
        end_by_signals()

    def leave(self) -> None:
        """There is no other face in a pipe."""

    def stopped(self) -> bool:
        return False

    def read(self, text: str) -> Optional[str]:
        if text.endswith('y/N '):
            print(printable(text.rstrip()), flush=True)
        line = sys.stdin.buffer.readline()
        return line.decode('utf-8', 'surrogateescape').strip() if line else None


class Prompt:
    """Ctrl-C drops what is typed; while nothing is typed it is noted for `stopped`. Ctrl-Z leaves the terminal as it was at first."""

    is_typed = True

    def __init__(self) -> None:
        self._is_stopped = False
        self._terminal = termios.tcgetattr(0)
        self._text = ''
        self._is_reading = False
        signal.signal(signal.SIGINT, self._interrupted)
        signal.signal(signal.SIGTSTP, self._suspended)
        for number in ENDING:
            signal.signal(number, self._ended)
        if HAS_READLINE:
            readline.parse_and_bind('"\\C-c": kill-whole-line')
            readline.parse_and_bind('tab: complete')
            readline.set_completer(self._completion)
            readline.set_completer_delims(' ')

    def read(self, text: str) -> Optional[str]:
        """A line; nothing at the end of the input."""
        text = printable(text)
        self._text = text
        while True:
            self._is_reading = True
            try:
                if HAS_READLINE:
                    self._without_interrupt()
                return input(text).strip()
            except EOFError:
                print()
                return None
            except KeyboardInterrupt:
                print()
            except UnicodeDecodeError:
                print('These bytes are not a text.')
            finally:
                self._is_reading = self._is_stopped = False
                self.restore()

    def stopped(self) -> bool:
        was, self._is_stopped = self._is_stopped, False
        return was

    def leave(self) -> None:
        self.restore()
        signal.signal(signal.SIGTSTP, signal.SIG_DFL)

    def restore(self) -> None:
        """The terminal is as it was at first."""
        with contextlib.suppress(termios.error):
            termios.tcsetattr(0, termios.TCSADRAIN, self._terminal)

    def _completion(self, _: str, at: int) -> Optional[str]:
        """The names that may come, by number, in place of the last word of a file's name that is being typed."""
        line = readline.get_line_buffer()[: readline.get_endidx()]
        command, blank, name = line.partition(' ')
        names = names_after(name) if blank and command.lower() in FILE_COMMANDS else []
        typed = readline.get_begidx() - len(command) - 1
        return names[at][typed:] if at < len(names) else None

    def _without_interrupt(self) -> None:
        mode = termios.tcgetattr(0)
        mode[6][termios.VINTR] = NO_KEY
        with contextlib.suppress(termios.error):
            termios.tcsetattr(0, termios.TCSADRAIN, mode)

    def _interrupted(self, *_: object) -> None:
        if self._is_reading:
            raise KeyboardInterrupt
        self._is_stopped = True

    def _ended(self, number: int, _: object) -> None:
        # The game is kept then, whatever comes meanwhile.
        for one in ENDING:
            signal.signal(one, signal.SIG_IGN)
        self.restore()
        raise SystemExit(128 + number)

    def _suspended(self, *_: object) -> None:
        mode = termios.tcgetattr(0)
        self.restore()
        signal.signal(signal.SIGTSTP, signal.SIG_DFL)
        os.kill(os.getpid(), signal.SIGTSTP)
        signal.signal(signal.SIGTSTP, self._suspended)
        with contextlib.suppress(termios.error):
            termios.tcsetattr(0, termios.TCSADRAIN, mode)
        if self._is_reading:
            print(self._text + (readline.get_line_buffer() if HAS_READLINE else ''), end='', flush=True)


def asking() -> Asking:
    """A prompt on a terminal; elsewhere lines as they come."""
    if sys.stdin.isatty() and sys.stdout.isatty():
        return Prompt()
    return Pipe()
