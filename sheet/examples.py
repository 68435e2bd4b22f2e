"""A first lesson: the cards of the course, each with its board and the step that shows the number, on a sheet of paper of its own."""

from __future__ import annotations

from string import Template
from typing import Iterator, List, NamedTuple, Optional, Sequence

from playing.board import GAMES, Board
from playing.cards import CARDS, Card
from playing.hint_walk import HintWalk
from playing.naming import Place
from playing.program import Gone
from playing.steps import Sentence
from sheet import drawing, steps
from sheet.layout import ANY_SIZE, CALLED, RULES, Paper, packed, roomiest
from sheet.listing import SQUARES, marked
from sheet.markup import Markup, fill, joined
from sheet.measures import length
from sheet.puzzles import Programs, Unfit
from sheet.titles import lines

#: Between a board and its text, and below a board.
BESIDE, BELOW = 900, 350

#: How the number that follows is shown, or the square that has none left.
FRAMED = 'The number that follows stands in a thick frame.'

BODY = Template('<p class="rules"><b>$called</b> $rules</p>\n<div class="lessons">\n$rows</div>\n')
ROW = Template('<div class="example" style="height:$height">$picture<div style="width:$width">$texts</div></div>\n')
HEAD = Template('<p><b>$text</b></p>')
SENTENCE = Template('<p>$text</p>')


class Lesson(NamedTuple):
    """A board, what is told beside it, and the square that has just got its number, or has none left."""

    head: str
    board: Board
    sentences: Sequence[Sentence]
    square: Optional[Place]


class Example(NamedTuple):
    game: str
    lessons: List[Lesson]


class Row(NamedTuple):
    """A board with its text on paper: how high both are, and how wide the text."""

    lesson: Lesson
    height: int
    width: int


def example(programs: Programs, game: str) -> Example:
    """Raises `Unfit` where the program doesn't make it."""
    first, *others = (_lesson(programs, game, card) for card in CARDS[game])
    return Example(game, [first._replace(sentences=[*first.sentences, Sentence(SQUARES), Sentence(FRAMED)]), *others])


def _lesson(programs: Programs, game: str, card: Card) -> Lesson:
    """The board of a card with the number of its hint, and the sentences of that."""
    if programs.ask(game, f'new {card.id}').refused:
        raise Unfit(f'The program makes no example of {GAMES[game]}.')
    board, hint = programs.board(game), programs.ask(game, 'hint').hint
    if hint is None:
        raise Gone('it gives no hint')
    walk = HintWalk(hint, board)
    if walk.move:
        programs.ask(game, walk.move)
    return Lesson(card.title, programs.board(game), [Sentence(card.text), *steps.told_in(hint)], walk.goal)


def sections(paper: Paper, told: Example) -> Iterator[Markup]:
    """The drawings between head and foot, on as few sheets of paper as can be: with squares as large as there is room for."""
    game, room = told.game, paper.room([told.game])

    def sheets(side: int) -> List[List[Row]]:
        rows = [_row(paper, lesson, game, side) for lesson in told.lessons]
        return packed(((row, row.height) for row in rows), room)

    side, found = roomiest(*paper.print.lesson_sides, sheets)
    for rows in found:
        yield fill(BODY, called=CALLED[game], rules=RULES[game].format(last=ANY_SIZE), rows=joined(_drawn(row, game, side, paper) for row in rows))


def _row(paper: Paper, lesson: Lesson, game: str, side: int) -> Row:
    font = paper.print.lesson
    full = drawing.extent(game, lesson.board.size, _pen(paper, game, side)) + drawing.edge(side)
    width = paper.width - full - BESIDE
    text = (1 + sum(lines(sentence.whole, width, font) for sentence in lesson.sentences)) * font * 27 // 20
    return Row(lesson, max(full, text) + BELOW, width)


def _pen(paper: Paper, game: str, side: int) -> drawing.Pen:
    return drawing.pen(game, side, paper.print.strength)


def _drawn(row: Row, game: str, side: int, paper: Paper) -> Markup:
    lesson = row.lesson
    called = drawing.title(lesson.head, lesson.board, '')
    svg = drawing.picture(lesson.board, _pen(paper, game, side), called, lesson.square, has_edges=True)
    texts = joined([fill(HEAD, text=lesson.head), *(fill(SENTENCE, text=marked(text)) for text in lesson.sentences)])
    return fill(ROW, height=length(row.height), width=length(row.width), picture=Markup(drawing.text_of(svg)), texts=texts)
