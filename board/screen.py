"""A terminal by `curses`: paints pieces of text and reads keys."""

from __future__ import annotations

import contextlib
import curses
import locale
import os
import select
import signal
import sys
import time
from typing import Deque, Dict, List, Mapping, Optional, Sequence, Tuple, Union

from collections import deque

from board.keys import Key
from board.picture import Piece, Style
from board.sequences import Sequences
from playing.kept_game import AGAIN, KeptGame
from playing.printable import printable

#: The keys that are no characters, by the names that `keys` knows.
NAMES: Dict[int, str] = {
    curses.KEY_UP: 'up',
    curses.KEY_DOWN: 'down',
    curses.KEY_LEFT: 'left',
    curses.KEY_RIGHT: 'right',
    curses.KEY_BACKSPACE: 'backspace',
    curses.KEY_DC: 'delete',
    curses.KEY_ENTER: 'enter',
    curses.KEY_NPAGE: 'page down',
    curses.KEY_PPAGE: 'page up',
    curses.KEY_BTAB: 'shift tab',
    curses.KEY_MOUSE: 'mouse',
    curses.KEY_RESIZE: 'resize',
}
CHARACTERS = {'\r': 'enter', '\n': 'enter', '\x7f': 'backspace', '\b': 'backspace', '\x1b': 'escape'}

#: Colours of 8, and of 256 where there are so many.
COLOURS = {
    Style.WRONG: (curses.COLOR_RED, 9),
    Style.OWN: (curses.COLOR_GREEN, 34),
    Style.MARKS: (curses.COLOR_BLUE, 33),
    Style.SHOWN: (curses.COLOR_YELLOW, 178),
    Style.LEFT: (curses.COLOR_CYAN, 37),
    Style.STRUCK: (curses.COLOR_MAGENTA, 170),
    Style.BLAMED: (curses.COLOR_MAGENTA, 141),
}

#: The ground of what a hint rests on, and dark colours to write on it.
TINT = (curses.COLOR_YELLOW, 229)
ON_TINT = {
    Style.WRONG: (curses.COLOR_RED, 124),
    Style.OWN: (curses.COLOR_BLACK, 22),
    Style.MARKS: (curses.COLOR_BLUE, 19),
    Style.LEFT: (curses.COLOR_BLUE, 24),
    Style.STRUCK: (curses.COLOR_MAGENTA, 90),
}
DARK = (curses.COLOR_BLACK, 16)

#: How a piece looks besides, and without colours.
ATTRIBUTES = {
    Style.TITLE: curses.A_BOLD,
    Style.GRID: curses.A_DIM,
    Style.GIVEN: curses.A_BOLD,
    Style.CLUE: curses.A_BOLD,
    Style.DONE: curses.A_DIM,
    Style.WRONG: curses.A_BOLD,
    Style.SHOWN: curses.A_BOLD,
    Style.STRUCK: curses.A_BOLD,
    Style.BLAMED: curses.A_BOLD | curses.A_UNDERLINE,
}

ENDING = (signal.SIGHUP, signal.SIGTERM, signal.SIGINT)


class Unfit(Exception):
    """The terminal can't show a board. The text says why."""


def keep_again(games: List[KeptGame]) -> Key:
    """Tries to keep these, and gives the key by which that is seen."""
    for game in games:
        game.keep_again()
    return Key('resize')


def has_lines(env: Mapping[str, str]) -> bool:
    """Whether lines of the grid can be drawn by characters of their own: in UTF-8, by a locale that the player chose."""
    if locale.nl_langinfo(locale.CODESET).upper() not in ('UTF-8', 'UTF8') or env.get('TERM', '').startswith('vt'):
        return False
    chosen = next((env[name] for name in ('LC_ALL', 'LC_CTYPE', 'LANG') if env.get(name)), '')
    return 'UTF' in chosen.upper() and hasattr(curses, 'unget_wch')


def first_environment() -> Dict[str, str]:
    """The environment as it was at the start: Python itself chooses a locale where there is none."""
    try:
        with open('/proc/self/environ', 'rb') as file:
            pairs = os.fsdecode(file.read()).split('\0')
    except OSError:
        return dict(os.environ)
    return dict(pair.split('=', 1) for pair in pairs if '=' in pair)


class Screen:
    """The terminal from the beginning of a `with` to its end, after which it is as it was."""

    def __init__(self) -> None:
        """Raises `Unfit`."""
        try:
            curses.setupterm()
            if not curses.tigetstr('cup'):
                raise Unfit(f'the terminal {os.environ.get("TERM", "")!r} has no screen to write to')
        except curses.error as error:
            raise Unfit(f'{error}') from error
        locale.setlocale(locale.LC_ALL, '')
        self.has_lines = has_lines(first_environment())
        self._attributes: Dict[Style, int] = dict(ATTRIBUTES)
        #: The same on the ground of what a hint rests on; nothing where there are no colours.
        self._tinted: Dict[Style, int] = {}
        self._pairs = 0
        self._keys: Deque[Key] = deque()
        self._sequences = Sequences()
        #: The games that may not be kept, whatever is over their boards.
        self.games: Sequence[KeptGame] = ()
        self._ended = 0
        self._wake = self._waker = -1

    def __enter__(self) -> Screen:
        self._wake, self._waker = os.pipe()
        os.set_blocking(self._waker, False)
        os.set_blocking(self._wake, False)
        os.environ.setdefault('ESCDELAY', '25')
        # A window that is resized wakes `key`; with a handler of its own `curses` would keep that for itself.
        signal.signal(signal.SIGWINCH, lambda number, frame: None)
        for number in ENDING:
            signal.signal(number, self._note_end)
        signal.set_wakeup_fd(self._waker, warn_on_full_buffer=False)
        self._window = curses.initscr()
        curses.noecho()
        curses.raw()
        curses.nonl()
        self._window.keypad(True)
        self._window.nodelay(True)
        self._show_cursor(False)
        self._begin_colours()
        with contextlib.suppress(curses.error):
            curses.mousemask(curses.BUTTON1_PRESSED | curses.BUTTON3_PRESSED)
            curses.mouseinterval(0)
        return self

    def __exit__(self, *_: object) -> None:
        signal.set_wakeup_fd(-1)
        for number in (*ENDING, signal.SIGWINCH):
            signal.signal(number, signal.SIG_DFL)
        os.close(self._wake)
        os.close(self._waker)
        with contextlib.suppress(curses.error, OSError):
            self._show_cursor(True)
            curses.endwin()

    @property
    def size(self) -> Tuple[int, int]:
        """Lines and columns, as they are now."""
        found = self._window.getmaxyx()
        with contextlib.suppress(OSError):
            columns, lines = os.get_terminal_size(sys.__stdout__.fileno() if sys.__stdout__ else 1)
            if (lines, columns) != found and lines > 0 and columns > 0:
                curses.resizeterm(lines, columns)
                self._window.clearok(True)
        lines, columns = self._window.getmaxyx()
        return lines, columns

    def paint(self, pieces: List[Piece], cursor: Optional[Tuple[int, int]] = None) -> None:
        """Shows these pieces and nothing else; the terminal's own cursor where one is named."""
        lines, columns = self.size
        self._window.erase()
        for piece in pieces:
            if 0 <= piece.line < lines and 0 <= piece.column < columns:
                attribute = self._attribute(piece) | (curses.A_REVERSE if piece.is_cursor else 0)
                # Nothing can be written to the last place of a screen without an error, and it is written nevertheless.
                with contextlib.suppress(curses.error):
                    self._window.addnstr(piece.line, piece.column, self._shown(piece.text), columns - piece.column, attribute)
        self._show_cursor(cursor is not None)
        with contextlib.suppress(curses.error):
            self._window.move(*(cursor or (lines - 1, columns - 1)))
        self._window.refresh()

    def _attribute(self, piece: Piece) -> int:
        """How a piece looks, but for the cursor."""
        plain = self._attributes.get(piece.style, 0)
        return self._tinted.get(piece.style, plain) if piece.is_tinted else plain

    def redraw(self) -> None:
        """The next picture is written anew, whatever is there."""
        self._window.clearok(True)

    def suspend(self) -> None:
        """Back to the shell, as Ctrl-Z does elsewhere; `fg` comes back."""
        os.killpg(os.getpgrp(), signal.SIGTSTP)
        self.redraw()

    def key(self) -> Key:
        """The next key; or `resize`, after which all is painted anew: each second that, too, where a game isn't kept. Raises `SystemExit` where the program is
        to end, or the terminal is gone.
        """
        empty, end = 0, time.monotonic() + AGAIN
        unkept = [game for game in self.games if not game.is_kept]
        while not self._keys:
            rest = max(0, end - time.monotonic()) if unkept else None
            if rest == 0:
                return keep_again(unkept)
            # Where a terminal is gone there is always something to read, which is nothing.
            empty = 0 if self._fill(rest) else empty + 1
            if empty > 100:
                time.sleep(0.01)
            if empty > 300:
                raise SystemExit(128 + signal.SIGHUP)
        return self._keys.popleft()

    def give_back(self, key: Key) -> None:
        """It is the next one again."""
        self._keys.appendleft(key)

    def has_key(self) -> bool:
        """Whether a key was pressed; it is left for `key`. Raises as that."""
        return self.waiting_keys() > 0

    def waiting_keys(self) -> int:
        """How many keys were pressed that `key` hasn't given yet. Raises as that."""
        self._fill(0)
        return sum(key.name != 'resize' for key in self._keys)

    def drop_last_key(self) -> None:
        """Takes away the key that was pressed last, of those that `key` hasn't given yet."""
        at = max(at for at, key in enumerate(self._keys) if key.name != 'resize')
        del self._keys[at]

    def _fill(self, seconds: Optional[float]) -> bool:
        """Waits for keys, or for a signal. False where there was something to read, and nothing came."""
        wait = self._sequences.wait(time.monotonic())
        ready = select.select([0, self._wake], [], [], seconds if wait is None else wait if seconds is None else min(wait, seconds))[0]
        if self._wake in ready:
            with contextlib.suppress(OSError):
                os.read(self._wake, 512)
            # The window may have got another size while something was painted for the old one.
            self._keys.append(Key('resize'))
        if self._ended:
            raise SystemExit(128 + self._ended)
        came = list(iter(self._read, None)) if 0 in ready else []
        self._keys.extend(self._sequences.keys(came, time.monotonic()))
        self._keys.extend(self._sequences.late(time.monotonic()))
        return bool(came) or 0 not in ready

    def _read(self) -> Optional[Key]:
        try:
            code: Union[int, str] = self._window.get_wch() if hasattr(self._window, 'get_wch') else self._window.getch()
        except curses.error:
            return None
        if isinstance(code, int):
            if code == curses.KEY_MOUSE:
                return self._mouse()
            if code < 0 or (code in NAMES and NAMES[code] == 'resize'):
                return None if code < 0 else Key('resize')
            return Key(NAMES.get(code, CHARACTERS.get(chr(code), chr(code)) if code < 256 else 'other'))
        return Key(CHARACTERS.get(code, code))

    def _mouse(self) -> Key:
        try:
            _, column, line, _, buttons = curses.getmouse()
        except curses.error:
            return Key('other')
        return Key('mouse', line, column, 3 if buttons & curses.BUTTON3_PRESSED else 1)

    def _begin_colours(self) -> None:
        is_coloured = False
        # Without colours the terminal is sent none, not even its own.
        if not os.environ.get('NO_COLOR'):
            with contextlib.suppress(curses.error):
                curses.start_color()
                with contextlib.suppress(curses.error):
                    curses.use_default_colors()
                is_coloured = curses.has_colors()
        if not is_coloured:
            self._attributes[Style.MARKS] = curses.A_UNDERLINE
            return
        for style, colour in COLOURS.items():
            self._attributes[style] = self._attributes.get(style, 0) | self._pair(colour, None)
        for style in Style:
            self._tinted[style] = ATTRIBUTES.get(style, 0) | self._pair(ON_TINT.get(style, DARK), TINT)

    def _pair(self, colour: Tuple[int, int], ground: Optional[Tuple[int, int]]) -> int:
        """A new pair of colours, each of 8 or of 256; without a ground on the terminal's own."""
        self._pairs += 1
        try:
            many = curses.COLORS >= 256
            curses.init_pair(self._pairs, colour[many], ground[many] if ground else -1)
        except (curses.error, ValueError):
            curses.init_pair(self._pairs, colour[0], ground[0] if ground else curses.COLOR_BLACK)
        return curses.color_pair(self._pairs)

    def _show_cursor(self, is_shown: bool) -> None:
        with contextlib.suppress(curses.error):
            curses.curs_set(1 if is_shown else 0)

    def _shown(self, text: str) -> str:
        """The text as this terminal can show it."""
        encoding = 'utf-8' if self.has_lines else 'ascii'
        return printable(text).encode(encoding, 'replace').decode(encoding)

    def _note_end(self, number: int, _: object) -> None:
        self._ended = number
