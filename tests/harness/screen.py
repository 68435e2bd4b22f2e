"""The screen of a terminal, by pyte, with what pyte leaves out of what terminals of the kind xterm are sent."""

from typing import List, Set

import pyte
from pyte import graphics

#: The bright colours are colours of their own, and what is dim has the place of what is italic, which nothing here is.
graphics.FG_AIXTERM.update({number: f'bright {graphics.FG_ANSI[number - 60]}' for number in range(90, 98)})
graphics.TEXT[2] = '+italics'

COLOURS = {**{name: number for number, name in graphics.FG_ANSI.items()}, **{name: number for number, name in graphics.FG_AIXTERM.items()}}

#: Commands that pyte passes over: what was written last once more, to scroll up and down, and tabs backwards.
MORE = {'b': 'repeat', 'S': 'scroll_up', 'T': 'scroll_down', 'Z': 'tab_back'}


class Screen(pyte.Screen):
    """So many lines and columns."""

    def __init__(self, lines: int, columns: int) -> None:
        super().__init__(columns, lines)
        self._last = ' '

    def text(self) -> List[str]:
        """The lines, without blanks at their ends."""
        return [line.rstrip() for line in self.display]

    def style_of(self, text: str) -> Set[int]:
        """The attributes of the first place where a text begins, as ECMA-48 numbers them; none where it doesn't stand."""
        for y, line in enumerate(self.text()):
            if text in line:
                found = self.buffer[y][line.index(text)]
                flags = {1: found.bold, 2: found.italics, 4: found.underscore, 7: found.reverse}
                colour = set() if found.fg == 'default' else {COLOURS.get(found.fg, 38)}
                ground = set() if found.bg == 'default' else {48}
                return colour.union(ground, (number for number, is_so in flags.items() if is_so))
        return set()

    def draw(self, data: str) -> None:
        self._last = data[-1:]
        super().draw(data)

    def repeat(self, count: int = 1) -> None:
        super().draw(self._last * count)

    def scroll_up(self, count: int = 1) -> None:
        self._scroll((self.margins.bottom if self.margins else self.lines - 1), count, self.index)

    def scroll_down(self, count: int = 1) -> None:
        self._scroll((self.margins.top if self.margins else 0), count, self.reverse_index)

    def _scroll(self, edge: int, count: int, move) -> None:  # type: ignore[no-untyped-def]
        y, self.cursor.y = self.cursor.y, edge
        for _ in range(count):
            move()
        self.cursor.y = y

    def tab_back(self, _: int = 1) -> None:
        self.cursor.x = max(0, self.cursor.x - 1) // 8 * 8


class Stream(pyte.Stream):
    csi = {**pyte.Stream.csi, **MORE}
    events = pyte.Stream.events.union(MORE.values())
