"""Why lines are no drawing, or not that of one puzzle: the first reason that there is, and where."""

from __future__ import annotations

import re
from typing import Iterator, List, NamedTuple, Sequence, Tuple

from playing.drawings.readings import readings, tried
from playing.drawings.ruled import grid_of
from playing.drawings.splitting import MOST_LINES
from playing.drawings.tables import BLANK, NUMBERS, SIGNS, Reading, has_sign
from playing.fair import SIZES

#: A form of each game that would do.
FORMS = {
    'towers': ['  2 3 1', '2 . . . -', '- . . 1 -', '- . . . 3', '  - - -'],
    'unequal': ['.<. .', '^ - -', '. . 2', '- - v', '. .>.'],
}

#: All that drawings are made of, once letters of one meaning are one.
KNOWN = frozenset(NUMBERS + SIGNS + '.-+| \t,;[]()"!~')


class Why(NamedTuple):
    """A line, counted from 0; a column, counted from 1, or 0 where it is the whole line; the reason; and the game of which a form is to be shown."""

    line: int
    column: int
    text: str
    game: str = ''


class Lines:
    """Lines that are to be a drawing, and the game that is named above, if one is."""

    def __init__(self, lines: Sequence[str], game: str) -> None:
        self.lines, self.game = lines, game
        self.is_signed = any(map(has_sign, lines)) or game == 'unequal'
        self.first = next((y for y, line in enumerate(lines) if line.strip()), 0)
        drawn = [(y, line) for y, line in enumerate(lines) if line.strip() and not set(line) & set('^v') and '--' not in line]
        #: The lines that aren't of signs nor ruled, each with how many symbols it has.
        self.rows = [(y, len(re.sub(r'[\s<>|,;"]', '', line))) for y, line in drawn if not self.is_signed or set(line) - set('- ')]
        #: Of Towers the first and the last one may have fewer than most.
        self.middle = self.rows[1:-1] if not self.is_signed and len(self.rows) > 3 else self.rows
        counts = [count for _, count in self.middle]
        self.usual = max(dict.fromkeys(counts), key=counts.count, default=0)
        self.odd_ones = [(y, count) for y, count in self.middle if count != self.usual]

    def signs(self) -> List[Tuple[int, int]]:
        return [(y, x) for y, line in enumerate(self.lines) for x, letter in enumerate(line) if letter in SIGNS]


def why(lines: Sequence[str], game: str, found: Sequence[Reading]) -> Why:
    """The reason for lines that may be several puzzles, or none."""
    own = Lines(lines, game)
    told = Why(own.first, 0, _two(found)) if len(found) > 1 else next(_reasons(own))
    return told._replace(game=found[0].puzzle.game if found else own.game or ('unequal' if own.is_signed else 'towers'))


def _two(found: Sequence[Reading]) -> str:
    puzzles = [reading.puzzle for reading in found]
    if all(puzzle.is_bare for puzzle in puzzles) and len({puzzle.size for puzzle in puzzles}) == 1 and len({puzzle.game for puzzle in puzzles}) == 2:
        return "it has no clue and no sign, so it may be of both games: write 'towers' or 'unequal' on a line above it"
    return ' or '.join(puzzle.called for puzzle in puzzles[:2]) + ': there are two ways to read it. Draw each place, also an empty one'


def _reasons(own: Lines) -> Iterator[Why]:
    """In this order."""
    yield from _strange(own)
    yield from _not_taken(own)
    yield from _tabs(own)
    yield from _foreign_sign(own)
    yield from _edge_sign(own)
    yield from _grid(own)
    yield from _whole(own)
    yield from _counts(own)


def _strange(own: Lines) -> Iterator[Why]:
    for y, line in enumerate(own.lines):
        # The board has this word for pencil marks of all numbers.
        for x, letter in enumerate(line.replace('all', '   ') if line.count('|') > 2 else line, 1):
            if letter not in KNOWN:
                called = f"'{letter}'" if letter.isprintable() else f'U+{ord(letter):04X}'
                yield Why(y, x, f'{called} is no number, no sign and no empty square')


def _not_taken(own: Lines) -> Iterator[Why]:
    """A reading in which something has been left out, or a number is above the size."""
    found = tried(own.lines, own.game)
    lost = [reading.lost for reading in found if reading.lost and reading.puzzle.fits()]
    if lost:
        yield Why(own.first, 0, f'{max(lost)}, and each other place has one: if nothing was left out, write - for each place without a clue')
    size = max((reading.puzzle.size for reading in found if not reading.lost), default=len(NUMBERS))
    for y, line in enumerate(own.lines):
        yield from (Why(y, x, f'a number is above the size, {size}') for x, letter in enumerate(line, 1) if letter in NUMBERS and int(letter) > size)


def _tabs(own: Lines) -> Iterator[Why]:
    tabbed = [(y, line) for y, line in enumerate(own.lines) if '\t' in line]
    if any(' ' in line.strip() for _, line in tabbed):
        yield Why(tabbed[0][0], tabbed[0][1].index('\t') + 1, 'tabs and spaces are mixed: write one of them between two places')
    cells = [(y, line.count('\t') + 1) for y, line in enumerate(own.lines) if line.strip(' ')] if tabbed else []
    yield from (Why(y, 0, f'this line has {count} cells, and the first one {cells[0][1]}') for y, count in cells if count != cells[0][1])


def _foreign_sign(own: Lines) -> Iterator[Why]:
    """A sign in a drawing that would be one of Towers without it."""
    signs, lines = own.signs(), [*own.lines]
    if len(signs) == 1 and own.game != 'unequal':
        y, x = signs[0]
        lines[y] = f'{lines[y][:x]} {lines[y][x + 1 :]}'
        if any(reading.puzzle.game == 'towers' for reading in readings(lines, own.game)):
            yield Why(y, x + 1, f"'{own.lines[y][x]}' stands between two squares of Towers, which has no signs")


def _edge_sign(own: Lines) -> Iterator[Why]:
    for y, x in own.signs():
        line = own.lines[y]
        if '|' not in line and line[x] in '<>' and not (line[:x].strip() and line[x + 1 :].strip()):
            yield Why(y, x + 1, f"'{line[x]}' stands at the edge, and a sign stands between two squares")


def _grid(own: Lines) -> Iterator[Why]:
    grid = grid_of(own.lines)
    if grid and grid.gap:
        y, x = grid.gap
        if sum(line[x] in '|+<>' for line in grid.lines) > 2:
            yield Why(y, x + 1, 'no wall stands here, as in the other lines')
    elif grid and grid.is_whole and grid.stray:
        y, x = grid.stray
        yield Why(y, x + 1, f"'{own.lines[y][x]}' doesn't stand between two squares")


def _whole(own: Lines) -> Iterator[Why]:
    """The reasons that are of no single line."""
    height, counts = sum(bool(line.strip()) for line in own.lines), [count for _, count in own.rows]
    are_numbers = {*''.join(own.lines)} <= {*NUMBERS, BLANK} and sum(count < max(counts) for _, count in own.middle) > 1
    # As high as wide, and too small or too large. A clue of a size that is too large may have two digits.
    is_large = not own.is_signed and own.usual == len(own.rows) and own.usual > SIZES[-1] + 2
    size = own.usual - (2 if is_large else 0)
    is_other = (is_large or not own.odd_ones) and size not in SIZES and (size > SIZES[-1] or own.usual < SIZES[0])
    texts = {
        "four lines of clues? Write 'top:', 'bottom:', 'left:' or 'right:' before each": not own.is_signed and len(counts) == 4 and {*counts} == {own.usual} <= {*SIZES},
        'numbers alone, and nothing where squares are empty, can have several meanings: draw each place, also an empty one': are_numbers,
        f'{height} line{"s" * (height > 1)}, and a drawing has from {SIZES[0]} to {MOST_LINES}': not SIZES[0] <= height <= MOST_LINES,
        f'a drawing of size {size}, and sizes go from {SIZES[0]} to {SIZES[-1]}': is_other,
    }
    yield from (Why(own.first, 0, text) for text, is_so in texts.items() if is_so)


def _counts(own: Lines) -> Iterator[Why]:
    """A line of another length than most; or they are as long as one another, and too few or too many."""
    height, wanted = len(own.rows), own.usual
    yield from (Why(y, 0, f'this line has {count} symbol{"s" * (count != 1)}, and the others {wanted}') for y, count in own.odd_ones)
    if wanted in range(SIZES[0], SIZES[-1] + 3):
        if height < wanted and (own.is_signed or wanted >= SIZES[0] + 2):
            yield Why(own.rows[-1][0], 0, f'the drawing ends here, after {height} {"rows" if own.is_signed else "lines"} of {wanted}')
        if height > wanted:
            yield Why(own.rows[wanted][0], 0, f'a line more than the {wanted} that are as long as they are many')
    if height == wanted in SIZES:
        yield Why(own.first, 0, 'it is in no form that can be read')
    yield Why(own.first, 0, f'{height} lines of {wanted} symbols make no square of a size from {SIZES[0]} to {SIZES[-1]}')
