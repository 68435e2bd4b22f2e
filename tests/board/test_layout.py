"""Where the board and its texts are in windows of many sizes; no terminal is needed for that."""

from typing import Optional, Tuple

import pytest

from board.layout import fit
from board.picture import KEYS_ASIDE, KEYS_BELOW, Look, picture
from playing.naming import Place
from playing.program import Program
from tests.harness import made

#: Two lines of 78 columns.
MESSAGE = 'Here only one number is left: the deductions rule out all others, and a hint once more tells which one it is.'


#: The easy puzzle of a game in a window of so many lines and columns: the lines of a square, and where the message begins, by line and column.
WINDOWS = [
    ('towers', 3, (24, 80), 5, (6, 45)),
    ('towers', 4, (24, 80), 3, (6, 41)),
    ('unequal', 4, (24, 80), 3, (6, 35)),
    ('towers', 5, (24, 80), 3, (6, 49)),
    ('unequal', 6, (24, 80), 1, (6, 51)),
    ('towers', 7, (24, 80), 1, (19, 1)),
    ('unequal', 7, (24, 80), 1, (17, 1)),
    ('towers', 8, (24, 80), 1, (21, 1)),
    ('unequal', 8, (24, 80), 1, (19, 1)),
    ('towers', 9, (24, 80), 1, (22, 1)),
    ('unequal', 9, (24, 80), 1, (21, 1)),
    ('unequal', 5, (43, 132), 7, (6, 83)),
    ('towers', 9, (43, 132), 3, (6, 81)),
    ('towers', 9, (60, 200), 5, (6, 117)),
    ('towers', 3, (60, 200), 7, (6, 57)),
    ('unequal', 4, (20, 40), 1, (11, 1)),
    ('unequal', 4, (22, 40), 3, (18, 1)),
]


#: Line and column of a click on Towers 3x3 in 80x24, and the square or the clue that is meant.
CLICKS = [
    (2, 4, (0, 0)),
    (10, 21, (1, 1)),
    (0, 9, (0, -1)),
    (20, 33, (2, 3)),
    (4, 0, (-1, 0)),
    (4, 42, (3, 0)),
    (4, 45, None),
    (18, 60, None),
    (22, 9, None),
]


@pytest.mark.parametrize(('line', 'column', 'place'), CLICKS)
def test_click(line: int, column: int, place: Optional[Place]) -> None:
    layout = fit(3, True, 24, 80)
    assert layout and layout.place_at(line, column) == place


@pytest.mark.parametrize(('game', 'size', 'window', 'deep', 'message'), WINDOWS)
def test_window(objects: str, game: str, size: int, window: Tuple[int, int], deep: int, message: Tuple[int, int]) -> None:
    """The message is beside the board, or right below it, and the keys are shown whatever it says."""
    with Program(objects, game, ['--id', made(game, size, 'e')[0]]) as program:
        board = program.first.board
    layout = fit(size, game == 'towers', *window)
    assert board and layout
    pieces = picture(board, layout, Look(message=MESSAGE))
    words = [piece for piece in pieces if piece.text.strip() and piece.text in MESSAGE and len(piece.text) > 2]
    shown = [piece.text for piece in pieces if piece.text in (*KEYS_ASIDE, *KEYS_BELOW)]
    assert (layout.deep, words[0][:2]) == (deep, message)
    assert ' '.join(piece.text for piece in words) == MESSAGE
    assert shown == KEYS_ASIDE if layout.side else len(shown) == 1
    assert len({piece.line for piece in words} | {piece.line for piece in pieces if piece.text in shown}) == len(words) + len(shown), 'no two on one line'
