"""How many puzzles a page can have, and how large their squares are there."""

from __future__ import annotations

import itertools
import re
from functools import lru_cache
from typing import Callable, Iterable, Iterator, List, Mapping, NamedTuple, Optional, Sequence, Tuple, TypeVar

from playing.board import GAMES
from playing.naming import PRINTED_AS
from sheet import drawing, measures, titles
from sheet.markup import shortened, width
from sheet.measures import Density, Print
from sheet.puzzles import Puzzle

#: The name of each game ahead of its rules, beside the one that newspapers have.
CALLED = {game: f'{title} ({PRINTED_AS[game]}).' for game, title in GAMES.items()}

#: The rules, in two sentences each, with the numbers that a page's puzzles have.
RULES = {
    'towers': 'Fill in the numbers 1 to {last}, each once in each row and in each column: they are heights of towers. '
    'A number outside says how many towers are seen from there; each tower hides all lower ones behind it.',
    'unequal': 'Fill in the numbers 1 to {last}, each once in each row and in each column. '
    'A wedge between two squares opens towards the greater number, and points at the smaller one.',
}
ANY_SIZE = 'the size of the grid'

#: From one side of squares to the next one that is tried.
STEP = 5

Piece = TypeVar('Piece')

#: The characters with which a line of an ID ends, if it can.
ENDS = ',/:'

#: A caption of the puzzle's own has so many lines at most.
MOST_NOTES = 2


class Numbered(NamedTuple):
    """A puzzle with its number on the sheet, and the pupil whom it is for, where such are named."""

    number: int
    puzzle: Puzzle
    #: Counted from 1; 0 where nobody is named.
    pupil: int = 0
    name: str = ''

    @property
    def label(self) -> str:
        """A name that no other puzzle of the class has."""
        return f'{self.pupil}.{self.number}' if self.pupil else str(self.number)


class Figure(NamedTuple):
    """A puzzle with its place on a page."""

    numbered: Numbered
    #: Of a square.
    side: int
    caption_width: int


class Page(NamedTuple):
    density: Density
    figures: List[Figure]
    #: How high a figure is with its caption, and each caption alone.
    height: int
    caption_height: int
    #: How many lines the puzzles' own captions have.
    notes: int
    row_gap: int

    @property
    def games(self) -> List[str]:
        return games_of([figure.numbered for figure in self.figures])

    def last(self, game: str) -> str:
        """The greatest number in the puzzles of a game, for its rules."""
        sizes = {figure.numbered.puzzle.size for figure in self.figures if figure.numbered.puzzle.game == game}
        return str(sizes.pop()) if len(sizes) == 1 else ANY_SIZE


class NoRoom(Exception):
    """A page has no room for what is asked. The text says for how much it has."""


class Paper:
    """A kind of paper, and how it is printed on: with a title of some lines, and with IDs or without."""

    def __init__(self, name: str, is_large: bool, title: str = '', has_ids: bool = True) -> None:
        """Raises `NoRoom` where the title is too long."""
        self.is_large = is_large
        self.size = measures.PAPERS[name]
        self.width = self.size.width - 2 * measures.SIDE
        self.height = self.size.height - 2 * measures.TOP - measures.SPARE
        self.print: Print = measures.LARGE if is_large else measures.USUAL
        self.densities: Sequence[Density] = measures.LARGE_DENSITIES if is_large else measures.DENSITIES
        self.has_ids = has_ids
        title_lines = titles.lines(title, self.width - self.print.name_width, self.print.title, width=titles.bold_width)
        if title_lines > self.print.title_lines:
            raise NoRoom(f'--title: it is too long: it may take {title_lines} lines, and {self.print.title_lines} have room')
        #: The height of the head.
        self.head = self.print.head + (title_lines - 1) * self.print.title * 6 // 5
        #: How wide a name beside the title may be.
        self.name_room = self.print.name_width - measures.NAME_GAP

    def above(self, text: str, label: str = '') -> int:
        """The height of a line of the rules, or of another text in their font."""
        return 60 + titles.lines(text, self.width, self.print.rules, label) * self.print.rules * 5 // 4

    def room(self, games: Sequence[str]) -> int:
        """The height that is left for puzzles, below the rules of these games."""
        rules = sum(self.above(RULES[game].format(last=ANY_SIZE), CALLED[game]) for game in games)
        return self.height - self.head - self.print.foot - rules - measures.HEAD_GAP


def packed(pieces: Iterable[Tuple[Piece, int]], room: int) -> List[List[Piece]]:
    """Pieces with their heights one below the other, on as many pages or columns as they take."""
    found: List[List[Piece]] = [[]]
    used = 0
    for piece, height in pieces:
        if used and used + height > room:
            found.append([])
            used = 0
        found[-1].append(piece)
        used += height
    return found


def roomiest(most: int, least: int, pages: Callable[[int], List[List[Piece]]]) -> Tuple[int, List[List[Piece]]]:
    """The greatest side of squares for which there are no more pages than for the least, and these pages."""
    fewest = pages(least)
    sides = ((side, pages(side)) for side in range(most, least, -STEP))
    return next(((side, found) for side, found in sides if len(found) <= len(fewest)), (least, fewest))


def games_of(some: Sequence[Numbered]) -> List[str]:
    """In the order in which they come."""
    return list(dict.fromkeys(each.puzzle.game for each in some))


def letters(room: int, font: int) -> int:
    """How many letters a line has room for."""
    return room * 100 // (font * measures.LETTER)


def id_letters(room: int, font: int) -> int:
    """The same of an ID, or of a command, whose letters are all as wide."""
    return room * 100 // (font * measures.ID_LETTER)


def note(puzzle: Puzzle, room: int, font: int, notes: int) -> str:
    """The puzzle's own caption, as far as so many lines have room for it; each but the last may lose a word."""
    return shortened(puzzle.caption, letters(room, font) * notes - 6 * (notes - 1)) if puzzle.caption else ''


def id_pieces(id: str) -> List[str]:
    """An ID, cut where a line may end."""
    return re.findall(f'[^{ENDS}]*[{ENDS}]|[^{ENDS}]+', id)


@lru_cache(maxsize=None)
def id_lines(id: str, most: int) -> int:
    """How many lines of so many letters an ID takes, where each piece that is too long for the rest of a line begins a new one."""
    count, used = 1, 0
    for piece in id_pieces(id):
        if used and used + len(piece) > most:
            count, used = count + 1, 0
        more, used = divmod(used + len(piece) - 1, most)
        count, used = count + more, used + 1
    return count


class Fit(NamedTuple):
    """How puzzles of one game and size come into their places."""

    side: int
    full: int
    caption_width: int
    caption_height: int


class Plan:
    """A page that some puzzles could be on, with squares of a least side by their size."""

    def __init__(self, paper: Paper, density: Density, some: Sequence[Numbered], least_side: Mapping[int, int]) -> None:
        self._density, self._some, self._strength, self._least_side, self._has_ids = density, some, paper.print.strength, least_side, paper.has_ids
        self._room = paper.room(games_of(some))
        self._width = (paper.width - measures.COLUMN_GAP * (density.columns - 1)) // density.columns
        self._height = (self._room - measures.ROW_GAP * (density.rows - 1)) // density.rows
        # Of captions; where a page has one column they are as wide as it only if nothing else will do.
        self._widths = [self._width] if density.columns > 1 else [measures.CAPTION_WIDTH, self._width]
        longest = max((width(each.puzzle.caption) for each in some), default=0)
        self._notes = min(MOST_NOTES, -(-longest // letters(self._widths[0], density.note)))

    def page(self) -> Optional[Page]:
        """Nothing where a square would be too small."""
        # All captions are as high as the highest, so that those of a row stand on one line.
        least = self._fits(0)
        fits = self._fits(max(fit.caption_height for fit in least)) if least else None
        if not fits:
            return None
        figures = [Figure(each, fit.side, fit.caption_width) for each, fit in zip(self._some, fits)]
        caption_height = fits[0].caption_height
        height = max(fit.full for fit in fits) + caption_height
        gap = (self._room - height * self._density.rows) // max(1, self._density.rows - 1)
        return Page(self._density, figures, height, caption_height, self._notes, min(measures.MOST_ROW_GAP, gap))

    def _fits(self, least_height: int) -> List[Fit]:
        """One for each puzzle, with captions of this height at least; none where one doesn't fit."""
        kinds = {(each.puzzle.game, each.puzzle.size): each.puzzle for each in self._some}
        found = {kind: self._fit(*kind, least_height) for kind in kinds}
        fits = [found[each.puzzle.game, each.puzzle.size] for each in self._some]
        return [fit for fit in fits if fit] if all(fits) else []

    def _fit(self, game: str, size: int, least_height: int) -> Optional[Fit]:
        """The greatest square at which the picture, and the caption with the longest of the IDs, come into their place."""
        ids = [each.puzzle.id for each in self._some if (each.puzzle.game, each.puzzle.size) == (game, size)]
        for width, side in itertools.product(self._widths, range(self._density.most_side, self._least_side[size] - 1, -STEP)):
            full = drawing.extent(game, size, drawing.pen(game, side, self._strength))
            caption_width = max(full, width)
            caption_height = max(least_height, *(self._caption_height(id, caption_width) for id in ids))
            if full <= self._width and full + caption_height <= self._height:
                return Fit(side, full, caption_width, caption_height)
        return None

    def _caption_height(self, id: str, caption_width: int) -> int:
        density = self._density
        of_id = id_lines(id, id_letters(caption_width, density.id)) if self._has_ids else 0
        return density.number_line + density.note_line * self._notes + density.id_line * of_id


def pages(paper: Paper, puzzles: Sequence[Numbered]) -> List[Page]:
    """As few pages as there can be with large squares; and on each no more puzzles than are needed for that."""
    allowed = [density for density in paper.densities if density.puzzles <= measures.PER_PAGE]
    every = [list(_pages(paper, allowed[at:], puzzles)) for at in range(len(allowed))]
    return [found for found in every if len(found) == len(every[0])][-1]


def _pages(paper: Paper, densities: Sequence[Density], puzzles: Sequence[Numbered]) -> Iterator[Page]:
    """Each the densest one that is possible. Raises `NoRoom` where not even one puzzle has room."""
    left = list(puzzles)
    while left:
        plans = (Plan(paper, density, left[: density.puzzles], measures.LEAST_SIDE) for density in densities)
        page = next(filter(None, (plan.page() for plan in plans)), None)
        if page is None:
            raise NoRoom('with this title not even one puzzle has room on a page')
        yield page
        del left[: len(page.figures)]


def asked_pages(paper: Paper, puzzles: Sequence[Numbered], per_page: int) -> List[Page]:
    """So many puzzles on each page. Raises `NoRoom` where their squares would be too small."""
    for number in range(per_page, 0, -1):
        found = _pages_of(paper, puzzles, number)
        if found and number == per_page:
            return found
        if found:
            least = measures.LEAST_ASKED // 100
            raise NoRoom(f"--per-page {per_page}: the squares would be smaller than {least} mm; {number} on a page have room")
    raise NoRoom(f'--per-page {per_page}: not even one puzzle fits on a page')


def _pages_of(paper: Paper, puzzles: Sequence[Numbered], number: int) -> List[Page]:
    """The pages with so many, each with the largest squares; none where a square would be too small."""
    found: List[Page] = []
    least = {size: measures.LEAST_ASKED for size in measures.LEAST_SIDE}
    for first in range(0, len(puzzles), number):
        some = puzzles[first : first + number]
        planned = (Plan(paper, density, some, least).page() for density in measures.grids(min(number, len(puzzles))))
        page = max(filter(None, planned), key=lambda page: min(figure.side for figure in page.figures), default=None)
        if page is None:
            return []
        found.append(page)
    return found
