"""The steps of the answers, in columns. Each column has a place of its own, so that nothing flows from one page into another."""

from __future__ import annotations

from string import Template
from typing import Iterator, List, NamedTuple, Sequence, Tuple

from playing.steps import Sentence
from sheet.layout import Numbered, Paper, packed
from sheet.markup import Markup, fill, joined, safe
from sheet.measures import STEPS_COLUMN_GAP, STEPS_GAP, length
from sheet.steps import Move, explained_words
from sheet.titles import lines

#: How the sentences name squares.
SQUARES = 'r2c3 is the square in row 2 from the top and column 3 from the left.'

#: Which moves are told.
LEFT_OUT = 'Each puzzle has here its first three moves and its hardest one. The others are left out, since they are found in the same ways.'

COLUMNS = Template('<div class="listing">\n$columns</div>\n')
BLOCK = Template('<div class="steps" style="width:$width;height:$height">$content</div>\n')
HEAD = Template('<p class="first"><b>$number</b> $grade$name</p>')
PUPIL = Template(' · <bdi>$name</bdi>')
LABEL = Template('<p><b>$label</b></p>')
LABELLED = Template('<p><b>$label.</b> $text</p>')
SENTENCE = Template('<p>$text</p>')
NAMED = Template('$number<i>$name.</i> $text')


class Explained(NamedTuple):
    """A puzzle, and how its answer goes on."""

    numbered: Numbered
    moves: List[Move]


class Paragraph(NamedTuple):
    """A line of text or several, as it is printed, and how many it takes at most."""

    content: Markup
    lines: int


class Part(NamedTuple):
    """Moves that stay together, as far as a column has room for them."""

    moves: List[List[Paragraph]]
    #: The space above.
    gap: int


def sections(paper: Paper, every: Sequence[Explained], has_grades: bool, are_all: bool = False) -> Iterator[Markup]:
    """The drawings between head and foot, for each sheet of paper."""
    columns, font = paper.print.steps_columns, paper.print.steps
    width = (paper.width - STEPS_COLUMN_GAP * (columns - 1)) // columns
    room = paper.height - paper.head - paper.print.foot
    filled = packed(_pieces(_parts(every, width, font, has_grades, are_all), font, room), room)
    blocks = [fill(BLOCK, width=length(width), height=length(room), content=joined(each.content for piece in column for each in piece)) for column in filled]
    for first in range(0, len(blocks), columns):
        yield fill(COLUMNS, columns=joined(blocks[first : first + columns]))


def _pieces(parts: Iterator[Part], font: int, room: int) -> Iterator[Tuple[List[Paragraph], int]]:
    """The pieces that stay together, with their heights: a part, or at least a move, that isn't longer than a column stands in one."""
    for part in parts:
        whole = [paragraph for move in part.moves for paragraph in move]
        pieces = [whole] if _height(whole, font) + part.gap <= room else _short(part.moves, font, room)
        for at, piece in enumerate(pieces):
            yield piece, _height(piece, font) + (0 if at else part.gap)


def _short(moves: List[List[Paragraph]], font: int, room: int) -> List[List[Paragraph]]:
    """The moves, and the paragraphs of those that are longer than a column."""
    pieces: List[List[Paragraph]] = []
    for move in moves:
        pieces += [move] if _height(move, font) + STEPS_GAP <= room else [[paragraph] for paragraph in move]
    return pieces


def _height(piece: Sequence[Paragraph], font: int) -> int:
    return sum(paragraph.lines for paragraph in piece) * font * 5 // 4


def _parts(every: Sequence[Explained], width: int, font: int, has_grades: bool, are_all: bool) -> Iterator[Part]:
    words = explained_words([move for explained in every for move in explained.moves])
    first = [SQUARES, *words, *([] if are_all else [LEFT_OUT])]
    yield Part([[Paragraph(fill(SENTENCE, text=text), lines(text, width, font)) for text in first]], 0)
    for explained in every:
        numbered = explained.numbered
        name = fill(PUPIL, name=numbered.name) if numbered.pupil else Markup('')
        head = Paragraph(fill(HEAD, number=numbered.label, grade=numbered.puzzle.grade if has_grades else '', name=name), 1)
        begun, *others = [list(paragraphs(move, width, font)) for move in explained.moves]
        yield Part([[head, *begun], *others], STEPS_GAP)


def paragraphs(move: Move, width: int, font: int) -> Iterator[Paragraph]:
    """The label of a move, and its sentences: the label stands before the first one, unless that has a number."""
    label = f'Move {move.number}{", the hardest" if move.is_hardest else ""}'
    texts = list(move.sentences)
    if move.is_numbered:
        yield Paragraph(fill(LABEL, label=label), 1)
    else:
        first = texts.pop(0)
        yield Paragraph(fill(LABELLED, label=label, text=marked(first)), lines(first.whole, width, font, f'{label}.'))
    yield from (Paragraph(fill(SENTENCE, text=marked(text)), lines(text.whole, width, font)) for text in texts)


def marked(sentence: Sentence) -> Markup:
    """A sentence with its number, and its name in italics."""
    return fill(NAMED, **sentence._asdict()) if sentence.name else safe(sentence.whole)
