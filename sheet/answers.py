"""The answers, by the numbers of their puzzles: as few sheets of paper as can be, and squares as large as those have room for."""

from __future__ import annotations

from string import Template
from typing import Iterator, List, Mapping, NamedTuple, Sequence, Tuple

from playing.naming import Place
from sheet import drawing, measures
from sheet.layout import Numbered, Paper, packed, roomiest
from sheet.markup import Markup, fill, joined
from sheet.measures import length
from sheet.steps import Move

#: The space left free beside a picture, for its lines.
LINES = 100

#: The sentence if the squares have the numbers of moves.
ORDER = 'The small number in a square is that of the move that fills it. The hardest move is underlined.'

TEXT = Template('<p class="rules">$text</p>\n')
PUPIL = Template('<p class="pupil" style="width:$width;height:$height;font-size:$font">$name</p>')
NAME = Template('<b>$pupil</b> <bdi>$name</bdi>')
ROW = Template('<div class="answers" style="height:$height;font-size:$font">\n$figures</div>\n')
FIGURE = Template('<figure style="width:$width">$pupil<p class="line"><b>$number</b><span>$grade</span></p>$picture</figure>\n')


class Row(NamedTuple):
    some: List[Numbered]
    #: How wide the place of each of them is.
    width: int


class Squares(NamedTuple):
    """How many answers may stand side by side; the side of their squares for which no paper is saved, if two large ones have room side by side; and
    the most side."""

    columns: int
    least: int
    most: int


USUAL = Squares(6, measures.LEAST_ANSWER_SIDE, measures.MOST_ANSWER_SIDE)
ORDERED = Squares(4, measures.LEAST_ORDERED_SIDE, measures.MOST_ANSWER_SIDE)
LARGE = Squares(2, measures.LEAST_LARGE_ANSWER_SIDE, measures.MOST_LARGE_ANSWER_SIDE)


class Key(NamedTuple):
    """How answers are printed."""

    paper: Paper
    has_grades: bool
    #: By the label of its puzzle, the move that fills each square; nothing where that isn't shown.
    orders: Mapping[str, Mapping[Place, Move]]

    @property
    def squares(self) -> Squares:
        return LARGE if self.paper.is_large else ORDERED if self.orders else USUAL

    @property
    def room(self) -> int:
        """The height that is left for answers, below what is told of the order."""
        paper = self.paper
        return paper.height - paper.head - paper.print.foot - (paper.above(ORDER) if self.orders else 0)


def sections(key: Key, puzzles: Sequence[Numbered]) -> List[Markup]:
    """The drawings between head and foot, for each sheet of paper."""
    paper, squares = key.paper, key.squares
    columns = columns_for(puzzles, squares.columns)
    least = min(squares.least, widest(paper, puzzles, 2))
    most = min(squares.most, widest(paper, puzzles, 1))
    side, found = roomiest(most, least, lambda side: packed(_rows(paper, puzzles, columns, side), key.room))
    above = [fill(TEXT, text=ORDER)] if key.orders else []
    return [joined([*above, *(_row(key, row, side) for row in rows)]) for rows in found]


def columns_for(puzzles: Sequence[Numbered], most: int) -> int:
    """How many stand side by side: as many as come out even where each pupil has so many."""
    count = sum(each.pupil == 1 for each in puzzles)
    if not count:
        return most
    own = -(-count // -(-count // most))
    return own * (most // own)


def widest(paper: Paper, puzzles: Sequence[Numbered], columns: int) -> int:
    """The greatest side of squares with which so many of the largest answers stand side by side."""
    return (answer_width(paper, columns) - LINES) * 100 // max(drawing.parts(each.puzzle.game, each.puzzle.size) for each in puzzles)


def answer_width(paper: Paper, columns: int) -> int:
    """The width that an answer has, if so many stand side by side."""
    return (paper.width - paper.print.answer_gap * (columns - 1)) // columns


def _rows(paper: Paper, puzzles: Sequence[Numbered], columns: int, side: int) -> Iterator[Tuple[Row, int]]:
    """With their heights."""
    left = list(puzzles)
    while left:
        row = _next_row(paper, left, columns, side)
        yield row, _height(paper, row, side)
        del left[: len(row.some)]


def _next_row(paper: Paper, left: Sequence[Numbered], columns: int, side: int) -> Row:
    """As many answers as have room side by side."""
    for number in range(columns, 1, -1):
        some, width = list(left[:number]), answer_width(paper, number)
        if all(_extent(each, side) <= width for each in some):
            # Those of the last pupil go into the next row where they don't all have room.
            pupil = left[number].pupil if len(left) > number else 0
            begins = next((at for at, each in enumerate(some) if each.pupil == pupil), 0) if pupil else 0
            return Row(some[:begins] if begins else some, width)
    return Row(list(left[:1]), paper.width)


def _extent(each: Numbered, side: int) -> int:
    """How wide and how high an answer is."""
    return drawing.extent(each.puzzle.game, each.puzzle.size, drawing.small_pen(each.puzzle.game, side))


def _height(paper: Paper, row: Row, side: int) -> int:
    """How high a row is, with the numbers above and what is free below."""
    head = _head(paper) if row.some[0].pupil else 0
    return max(_extent(each, side) for each in row.some) + _font(paper, side) * 6 // 5 + paper.print.answer_free + head


def _head(paper: Paper) -> int:
    """The height of a pupil's name above the answers."""
    return paper.print.name * 3 // 2


def _font(paper: Paper, side: int) -> int:
    """That of the numbers above the answers."""
    return max(paper.print.answer_number, min(paper.print.most_answer_number, side * 45 // 100))


def _row(key: Key, row: Row, side: int) -> Markup:
    figures = (_figure(key, row, at, side) for at in range(len(row.some)))
    return fill(ROW, height=length(_height(key.paper, row, side)), font=length(_font(key.paper, side)), figures=joined(figures))


def _pupil(paper: Paper, row: Row, at: int) -> Markup:
    """The name above the first answer of a pupil in a row, as wide as all of them."""
    each = row.some[at]
    if not each.pupil:
        return Markup('')
    count = sum(other.pupil == each.pupil for other in row.some)
    width = row.width * count + paper.print.answer_gap * (count - 1)
    name = Markup('') if at and row.some[at - 1].pupil == each.pupil else fill(NAME, pupil=each.pupil, name=each.name)
    return fill(PUPIL, width=length(width), height=length(_head(paper)), font=length(paper.print.name), name=name)


def _figure(key: Key, row: Row, at: int, side: int) -> Markup:
    each, width = row.some[at], row.width
    puzzle = each.puzzle
    grade = puzzle.grade if key.has_grades else ''
    name = drawing.title(f'Answer to puzzle {each.label}', puzzle.answer, grade)
    svg = drawing.picture(puzzle.answer, drawing.small_pen(puzzle.game, side), name, order=key.orders.get(each.label))
    picture = Markup(drawing.text_of(svg))
    return fill(FIGURE, width=length(width), pupil=_pupil(key.paper, row, at), number=each.number, grade=grade, picture=picture)
