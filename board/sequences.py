"""Keys that a terminal sends as several characters after an Escape, however slowly these come: one such key is one key."""

from __future__ import annotations

from typing import Iterable, List, Optional

from board.keys import Key

#: The bytes that terminals send for some keys, after an Escape.
SEQUENCES = {'[A': 'up', '[B': 'down', '[C': 'right', '[D': 'left', '[3~': 'delete', '[5~': 'page up', '[6~': 'page down', '[Z': 'shift tab'}

#: The byte that comes next after an Escape that isn't a key by itself.
BEGINS = ('[', 'O')

#: So many characters follow a click that an old terminal tells.
CLICK, AFTER_CLICK = '[M', 3

#: So begin some keys of a console.
TWICE = '[['

#: For so many seconds an Escape may be the beginning of a key, and a key that has begun may go on.
ESCAPE_LASTS, KEY_LASTS = 0.5, 3.0


class Sequences:
    """Puts together what belongs together. A key of several characters that isn't known is one key, too: its digits are no numbers for the board."""

    def __init__(self) -> None:
        #: The bytes that came of a key that has begun, without its Escape; nothing where none has.
        self._sent: Optional[str] = None
        #: Until when more of it may come.
        self._end = 0.0

    def keys(self, came: Iterable[Key], now: float) -> List[Key]:
        """The keys that are whole now, of those that came."""
        found: List[Key] = []
        for key in came:
            self._take(key, found)
            self._end = now + (KEY_LASTS if self._sent else ESCAPE_LASTS)
        return found

    def late(self, now: float) -> List[Key]:
        """A key that has begun, where it has lasted too long."""
        if self._sent is None or now < self._end:
            return []
        return [self._done()]

    def wait(self, now: float) -> Optional[float]:
        """For how many seconds a key that has begun may go on; nothing where none has."""
        return None if self._sent is None else max(0.0, self._end - now)

    def _take(self, key: Key, found: List[Key]) -> None:
        if self._sent is None or key.name == 'resize':
            self._begin(key, found)
        elif len(key.name) > 1 or (not self._sent and key.name not in BEGINS):
            # The Escape was a key by itself, or what has begun goes on no more.
            found.append(self._done())
            self._begin(key, found)
        else:
            self._sent += key.name
            if self._is_whole():
                found.append(self._done())

    def _begin(self, key: Key, found: List[Key]) -> None:
        if key.name == 'escape':
            self._sent = ''
        else:
            found.append(key)

    def _is_whole(self) -> bool:
        sent = self._sent or ''
        if sent.startswith(CLICK):
            return len(sent) == len(CLICK) + AFTER_CLICK
        return len(sent) > 1 and '@' <= sent[-1] <= '~' and sent != TWICE

    def _done(self) -> Key:
        sent, self._sent = self._sent or '', None
        return Key(SEQUENCES.get(sent.replace('O', '['), 'other') if sent else 'escape')
