"""Lengths on paper. All are hundredths of a millimetre, whole numbers: the same on every machine."""

from __future__ import annotations

import itertools
from typing import Dict, List, NamedTuple, Tuple


class Paper(NamedTuple):
    width: int
    height: int


PAPERS: Dict[str, Paper] = {'a4': Paper(21000, 29700), 'letter': Paper(21590, 27940)}

#: The margins at the sides, and at the top and the bottom.
SIDE, TOP = 1200, 1000

#: A page is lower by so much than what is free on the paper: one that is higher by a hair makes an empty page after it.
SPARE = 100

#: Between two columns, so that scissors have room; between two rows at least and at most; and between the head and what is below.
COLUMN_GAP, ROW_GAP, MOST_ROW_GAP, HEAD_GAP = 800, 200, 2000, 300
HALF_GAP = COLUMN_GAP // 2

#: Between a title and the name beside it; between two columns of steps, and above a puzzle there.
NAME_GAP, STEPS_COLUMN_GAP, STEPS_GAP = 600, 600, 150

#: How wide a letter of a caption is on the whole, and one of an ID, in per cent of its font, rounded up over the fonts that a page may get.
LETTER, ID_LETTER = 56, 61

#: The side of a square isn't less, by the size: there is to be room for pencil marks. Where it is asked how many come onto a page this is the least.
LEAST_SIDE = {3: 600, 4: 600, 5: 600, 6: 600, 7: 800, 8: 850, 9: 850}
LEAST_ASKED = 700

#: The squares of answers: no paper is saved by smaller ones, nor taken for larger ones, and what looks childish is larger still.
LEAST_ANSWER_SIDE, MOST_ANSWER_SIDE = 440, 1200
LEAST_LARGE_ANSWER_SIDE, MOST_LARGE_ANSWER_SIDE = 1000, 1600

#: The least square of an answer whose squares have the numbers of moves.
LEAST_ORDERED_SIDE = 800


class Print(NamedTuple):
    """How a whole sheet is printed: its fonts, and what head and foot take."""

    head: int
    foot: int
    #: Its font, and how many lines it has at most.
    title: int
    title_lines: int
    rules: int
    #: Of the line for a name, and what it takes of the width.
    name: int
    name_width: int
    footer: int
    #: The command in the foot.
    command: int
    #: Of answers: the number above at least and at most, what is free around it and below, and the gap between two columns.
    answer_number: int
    most_answer_number: int
    answer_free: int
    answer_gap: int
    #: Of an example's text, and the most and the least side of its squares: no paper is saved by smaller ones.
    lesson: int
    lesson_sides: Tuple[int, int]
    #: Of steps: their font, and how many columns they have.
    steps: int
    steps_columns: int
    #: How much stronger lines are, in per cent.
    strength: int


USUAL = Print(
    head=920,
    foot=450,
    title=529,
    title_lines=6,
    rules=300,
    name=318,
    name_width=6400,
    footer=247,
    command=198,
    answer_number=300,
    most_answer_number=423,
    answer_free=490,
    answer_gap=800,
    lesson=423,
    lesson_sides=(1400, 650),
    steps=282,
    steps_columns=2,
    strength=100,
)
LARGE = Print(
    head=1650,
    foot=650,
    title=917,
    title_lines=5,
    rules=564,
    name=564,
    name_width=7200,
    footer=423,
    command=282,
    answer_number=635,
    most_answer_number=635,
    answer_free=838,
    answer_gap=900,
    lesson=564,
    lesson_sides=(2000, 1300),
    steps=564,
    steps_columns=1,
    strength=120,
)


class Density(NamedTuple):
    """How many puzzles a page has, and how they are printed then."""

    columns: int
    rows: int
    #: A square is never larger: it would look childish.
    most_side: int
    #: The fonts of a caption.
    number: int
    note: int
    id: int
    #: The height of its lines.
    number_line: int
    note_line: int
    id_line: int

    @property
    def puzzles(self) -> int:
        return self.columns * self.rows


def grids(puzzles: int) -> List[Density]:
    """The ways to have so many puzzles on a page, without an empty column or row."""
    found = []
    for columns, rows in itertools.product(range(1, MOST_COLUMNS + 1), range(1, MOST_ROWS + 1)):
        has_room, is_sparse = columns * rows >= puzzles, puzzles <= max((columns - 1) * rows, columns * (rows - 1))
        if has_room and not is_sparse:
            like = [density for density in DENSITIES if density.puzzles >= columns * rows][-1]
            found.append(like._replace(columns=columns, rows=rows))
    return found


ONE = Density(columns=1, rows=1, most_side=2600, number=423, note=247, id=229, number_line=590, note_line=310, id_line=255)
TWO = ONE._replace(rows=2, most_side=2000)
FOUR = TWO._replace(columns=2, most_side=1700)
SIX = FOUR._replace(rows=3, most_side=1400, number=388, id=212, number_line=550, id_line=235)
TWELVE = SIX._replace(columns=3, rows=4, most_side=1200, number=353, id=194, number_line=510, id_line=215)

#: How puzzles are printed on a page that has no more of them than this, the densest first; and the most columns and rows.
DENSITIES = [TWELVE, SIX, FOUR, TWO, ONE]
MOST_COLUMNS, MOST_ROWS = TWELVE.columns, TWELVE.rows

#: How many come onto a page where it isn't asked.
PER_PAGE = 6

LARGE_DENSITIES = [Density(columns=1, rows=1, most_side=3200, number=847, note=494, id=423, number_line=1110, note_line=620, id_line=520)]

#: Below this font an ID is bold: a copier eats the strokes of small letters.
BOLD_BELOW = 229

#: A caption is as wide as that at least, where a page has one column; and so much of its first line is free above.
CAPTION_WIDTH, CAPTION_TOP = 7000, 80


def length(hundredths: int) -> str:
    """As a style sheet has it."""
    return f'{hundredths // 100}.{hundredths % 100:02}mm'
