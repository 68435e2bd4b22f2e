"""The puzzles of a text, line by line as it comes: IDs, and puzzles that are drawn. A drawing that is closed is taken at once."""

from __future__ import annotations

import re
from typing import Dict, Iterator, List, NamedTuple, Optional, Sequence

from playing.drawings import sentences
from playing.drawings.readings import readings
from playing.drawings.splitting import MOST_LINES, parts
from playing.drawings.tables import EMPTY, NUMBERS, SAME, Puzzle
from playing.drawings.titles import ALONE, SIDES, game_in, id_in, is_title, side_of
from playing.fair import SIZES

#: So many blank lines are in no drawing; so many lines are looked at together; and so many letters a line has at most.
GAP, MOST, LONGEST = 12, 10 * MOST_LINES, 400

NAMED_BESIDE = 'clues with the names of their sides stand beside it: draw these around it, or name all four sides and draw no squares'

#: What `show` prints of Towers: its last line says that it is the last.
SHOWN = re.compile(r'\+( [1-9-])+ \+\n([1-9-]( [1-9.])+ [1-9-]\n)+\+( [1-9-])+ \+')


class Read(NamedTuple):
    """The finding at a line, counted from 1: a puzzle, an ID, or why there is none."""

    line: int
    puzzle: Optional[Puzzle] = None
    id: str = ''
    #: The game of the ID, if one is named before it; or that of which a form is to be shown.
    game: str = ''
    why: str = ''
    #: The column of what is odd, counted from 1; 0 where it is the line as a whole.
    column: int = 0
    #: A doubt about parts of a puzzle that may have been lost.
    doubt: str = ''

    @property
    def form(self) -> List[str]:
        """A drawing that could be read."""
        return sentences.FORMS['unequal' if self.game == 'unequal' else 'towers']


def read(text: str) -> List[Read]:
    """All of a text, in its order."""
    reader = Reader()
    found: List[Read] = []
    for line in re.split('\r\n|\r|\n', re.sub('(\r\n|\r|\n)\\Z', '', text)):
        found += reader.take(line)
    return [*found, *reader.end()]


class Reader:
    """A text so far."""

    def __init__(self, number: int = 0) -> None:
        #: The number of the line that was taken last.
        self._number = number
        #: The game that is named above.
        self._game = ''
        #: The lines that are drawn since then, the number of the first, and where the last block of them begins.
        self._lines: List[str] = []
        self._begun = 1
        self._block: Optional[int] = None
        self._named: Dict[str, str] = {}
        #: The puzzle of four sides that were named, until it is known whether squares stand below them.
        self._sides: Optional[Read] = None
        #: Whether this block has too many lines, so that the rest of it is passed over.
        self._is_long = False

    def take(self, line: str) -> Iterator[Read]:
        """The puzzles that are whole with the next line."""
        self._number += 1
        # A mark of the byte order, also where files were put together.
        line = line.lstrip('\ufeff')
        side, id = side_of(line), id_in(line)
        if side:
            yield from self._drawings(is_beside=self._block is not None)
            yield from self._side(*side)
        elif id:
            yield from self.end()
            yield Read(self._number, id=id.text, game=id.game or self._game)
        elif is_title(line):
            yield from self.end()
            self._game = game_in(line) or self._game
        else:
            yield from self._draw(line[: LONGEST + 1].translate(SAME))

    def end(self) -> Iterator[Read]:
        """The puzzles that are whole as no more of it comes."""
        yield from self._drawings()
        if self._named:
            yield Read(self._number, game='towers', why=f"clues are named for {', '.join(self._named)}, and the other sides are missing")
            self._named = {}

    # --- drawings ---

    def _draw(self, line: str) -> Iterator[Read]:
        is_empty = not line.strip(' ')
        if is_empty:
            yield from self._end_block()
        elif self._is_long:
            return
        if not self._lines:
            self._begun = self._number
        if not is_empty and self._block is None:
            self._block = len(self._lines)
        self._lines.append(line)
        if self._block is not None:
            yield from self._look_at_block(self._block)
        elif len(self._lines) >= GAP and not any(own.strip(' ') for own in self._lines[-GAP:]):
            yield from self._drawings()

    def _look_at_block(self, block: int) -> Iterator[Read]:
        """A block that is closed is taken with all that stands above it, and so is one that is too long."""
        own = [line.strip(' ') for line in self._lines[block:]]
        closed = readings(own, self._game) if not self._named and SHOWN.fullmatch('\n'.join(own)) else []
        if len(closed) == 1:
            yield from self._of_sides()
            begin = self._begun + block
            self._lines = self._lines[:block]
            yield from self._parted()
            yield Read(begin, closed[0].puzzle)
            self._forget()
        elif len(own) > 2 * MOST_LINES:
            self._is_long = True
            yield from self._drawings()

    def _end_block(self) -> Iterator[Read]:
        """A blank line comes after a block: a drawing to which nothing more can belong is taken."""
        block, self._block, self._is_long = self._block, None, False
        if block is not None:
            yield from self._of_sides()
        if block is None or not self._lines:
            return
        if len(self._lines) - block == 1 and ALONE.fullmatch(self._lines[block]):
            del self._lines[block]
            yield from self._drawings()
        elif not self._named and not any(line.strip(' ') for line in self._lines[:block]):
            found = readings(self._drawn, self._game)
            if len(found) == 1 and found[0].is_whole:
                yield Read(self._begun + first_of(self._drawn), found[0].puzzle, doubt=found[0].doubt)
                self._forget()
        elif len(self._lines) > MOST:
            yield from self._drawings() if self._named else self._parted(is_end=False)

    def _drawings(self, is_beside: bool = False) -> Iterator[Read]:
        """All that is drawn so far. Clues that are named may belong to it, if some are missing above it or they stand just below it."""
        yield from self._of_sides()
        if not any(map(str.strip, self._drawn)):
            self._lines, self._block = [], None
            return
        if self._named or is_beside:
            yield Read(self._begun + first_of(self._drawn), game='towers', why=NAMED_BESIDE)
        else:
            yield from self._parted()
        self._forget()

    @property
    def _drawn(self) -> List[str]:
        """The lines without the marks of a mail's quotation, where each has one: no line of a drawing begins so."""
        if all(line.startswith('>') for line in self._lines if line.strip(' ')):
            return [re.sub('^> ?', '', line) for line in self._lines]
        return self._lines

    def _forget(self) -> None:
        """The game that is named above is that of one drawing."""
        self._lines, self._block, self._game = [], None, ''

    def _parted(self, is_end: bool = True) -> Iterator[Read]:
        """The drawings of the lines; where more of these are to come, those that they can't change."""
        lines, begun = self._drawn, self._begun
        found = parts(lines, self._game, is_end)
        for part in found:
            own, begin = lines[part.begin : part.end], begun + part.begin
            if len(part.found) == 1:
                yield Read(begin + first_of(own), part.found[0].puzzle, doubt=part.found[0].doubt)
            else:
                told = sentences.why(own, self._game, part.found)
                yield Read(begin + told.line, game=told.game, why=told.text, column=told.column)
        end = found[-1].end if found else 0
        self._lines, self._begun = self._lines[end:], begun + end

    # --- clues with the names of their sides ---

    def _side(self, side: str, text: str) -> Iterator[Read]:
        if side in self._named:
            yield Read(self._number, game='towers', why=f"'{side}' stands here twice")
        self._named[side] = text
        if len(self._named) == len(SIDES):
            self._sides, self._named = _of_sides(self._number, self._named), {}

    def _of_sides(self) -> Iterator[Read]:
        """The puzzle of four sides, with the squares below it: alone these would belong to any game."""
        told, self._sides = self._sides, None
        if told is None:
            return
        own, found = told.puzzle, [reading.puzzle for reading in readings(self._drawn)]
        squares = [each for each in found if own and each.size == own.size and each.is_bare]
        if own and squares:
            told = told._replace(puzzle=own._replace(items=own.items + squares[0].items))
            yield told if len(squares) == len(found) else Read(self._begun + first_of(self._drawn), game='towers', why=NAMED_BESIDE)
            self._forget()
        else:
            yield told


def first_of(lines: Sequence[str]) -> int:
    """The first line that isn't blank."""
    return [bool(line.strip(' ')) for line in lines].index(True)


def _of_sides(line: int, named: Dict[str, str]) -> Read:
    """Four lines of clues, by their names."""
    texts = {name: [*re.sub(r'[\s,;|()\[\]{}]', '', text.translate(SAME))] for name, text in named.items()}
    size = len(texts['top'])
    if size not in SIZES or any(len(own) != size for own in texts.values()):
        counts = ', '.join(f'{len(own)} ({name})' for name, own in texts.items())
        return Read(line, game='towers', why=f'the four sides have {counts} clues: one for each line, and - for none')
    items = []
    for name, own in texts.items():
        for at, symbol in enumerate(own):
            x, y = {'top': (at, -1), 'bottom': (at, size), 'left': (-1, at), 'right': (size, at)}[name]
            if symbol in NUMBERS[:size]:
                items.append(f'item {x},{y},{symbol}')
            elif symbol not in (EMPTY, '-'):
                return Read(line, game='towers', why=f"'{symbol}' is no clue of a puzzle of size {size}")
    return Read(line, Puzzle('towers', size, tuple(items)))
