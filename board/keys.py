"""Which key does what. A key is a character, or one of the names of `screen`."""

from __future__ import annotations

from typing import Dict, NamedTuple, Tuple


class Key(NamedTuple):
    """A character, or the name of another key; of the mouse also where it was, and which button."""

    name: str
    line: int = 0
    column: int = 0
    button: int = 0


#: Columns and rows by which the cursor moves.
STEPS: Dict[str, Tuple[int, int]] = {
    'left': (-1, 0),
    'right': (1, 0),
    'up': (0, -1),
    'down': (0, 1),
}

#: The act of each key, by the name of an action that a front end has.
ACTIONS: Dict[str, str] = {
    'enter': 'enter',
    'p': 'pencil',
    ' ': 'clear',
    '0': 'clear',
    'backspace': 'clear',
    'delete': 'clear',
    'm': 'all marks',
    'P': 'possible',
    'M': 'tidy',
    'u': 'undo',
    '\x1a': 'undo',
    'r': 'redo',
    '\x12': 'redo',
    'd': 'done mark',
    'R': 'restart',
    'h': 'hint',
    'H': 'why',
    'c': 'check',
    'b': 'back',
    'S': 'solve',
    'n': 'new',
    'o': 'open',
    'w': 'save as',
    'i': 'show ID',
    '?': 'help',
    ':': 'command',
    'E': 'desk',
    'q': 'quit',
    '\x03': 'quit',
}

#: The key that keeps what a hint ruled out, after its last step. On the page it goes up, and `x` keeps.
KEEP = 'k'

#: The same for keys of a terminal alone.
TERMINAL: Dict[str, str] = {
    KEEP: 'keep',
    'K': 'hints',
    '\t': 'next square',
    'shift tab': 'square before',
    'T': 'lines',
    'Z': 'suspend',
    '\x0c': 'redraw',
    'mouse': 'mouse',
    'resize': 'resize',
}

#: On the setter's desk: where a sign stands as it is read, right of the chosen square or below it, and whether that square is the greater one.
SIGNS: Dict[str, Tuple[int, int, bool]] = {'<': (1, 0, False), '>': (1, 0, True), '^': (0, 1, False), 'v': (0, 1, True)}

#: The key there that fills all clues or signs in.
FILL = 'F'

#: Keys that walk along the steps of a hint.
ALONG: Dict[str, int] = {'left': -1, 'up': -1, 'right': 1, 'down': 1}

#: Keys that do their work where the board has no room, too.
WITHOUT_BOARD = {'n', 'o', 'w', 'i', 'E', '?', 'T', 'Z', '\x0c', 'q', '\x03', 'resize'}

#: Keys that close a page and do nothing else.
CLOSING = {'enter', ' ', 'escape', 'q', '?', '\x03', 'mouse'}
