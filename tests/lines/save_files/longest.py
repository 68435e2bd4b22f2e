"""The longest history, saved and loaded: as many states as a session can have, at the last one and in the middle."""

from itertools import cycle, islice
from typing import Iterable

from tests.harness.game import HEAD, ID
from tests.lines.runs import Run

#: Commands of each kind of record, with the line that is written for each. After the last the board is as at the start.
ROUND = [
    (b'move R0,0,1', b'MOVE    :6:R0,0,1'),
    (b'move P1,0,2', b'MOVE    :6:P1,0,2'),
    (b'move P1,1,3', b'MOVE    :6:P1,1,3'),
    (b'move P1,0,0', b'MOVE    :6:P1,0,0'),
    (b'move D0,-1', b'MOVE    :5:D0,-1'),
    (b'move R0,0,0', b'MOVE    :6:R0,0,0'),
    (b'move M', b'MOVE    :1:M'),
    (b'move P2,2,1', b'MOVE    :6:P2,2,1'),
    (b'move S123231312', b'SOLVE   :10:S123231312'),
    (b'restart', b'RESTART :13:3//////3/////'),
]
MOST_STATES = 100_000
MOVES = MOST_STATES - 1

#: A state in the middle, where a pencil mark stands.
MIDDLE = 50_006
VIEWS = b'status\nmarks\ndone\nshow\n'
AT_THE_MIDDLE = b'playing 50006/100000\n1,1:3\n0,-1\n+ 3 - - +\n3 1 . . -\n- . . . -\n- . . . -\n+ - - - +\n'


def lines_of(kinds: Iterable[bytes]) -> bytes:
    """A line for each move of the longest history, round by round."""
    return b''.join(kind + b'\n' for kind in islice(cycle(kinds), MOVES))


def written(position: int) -> bytes:
    """The save of that history at a position."""
    counts = b'NSTATES :6:100000\nSTATEPOS:%d:%d\n' % (len(str(position)), position)
    return HEAD + counts + lines_of(record for _, record in ROUND)


FILLED = Run(
    'filled and saved',
    ['towers', '--id', ID, '--save', 'full.sav'],
    lines_of(command for command, _ in ROUND) + b'status\n',
    output=b'ok\n' * MOVES + b'helped 100000/100000\n',
    holds={'full.sav': written(MOST_STATES)},
)
GONE_BACK = Run(
    'loaded, and gone back to the middle',
    ['towers', '--load', 'full.sav', '--save', 'middle.sav'],
    b'status\n' + b'undo\n' * (MOST_STATES - MIDDLE) + VIEWS,
    output=b'helped 100000/100000\n' + b'ok\n' * (MOST_STATES - MIDDLE) + AT_THE_MIDDLE,
    holds={'middle.sav': written(MIDDLE)},
)
AGAIN = Run(
    'loaded in the middle',
    ['towers', '--load', 'middle.sav', '--save', 'again.sav'],
    VIEWS,
    output=AT_THE_MIDDLE,
    holds={'again.sav': written(MIDDLE)},
)
