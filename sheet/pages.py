"""The whole sheet in HTML: one page with a section for each sheet of paper, which nothing flows out of."""

from __future__ import annotations

import hashlib
from string import Template
from typing import Dict, Iterator, List, NamedTuple, Sequence

from playing.board import GAMES
from sheet import answers, drawing, examples, layout, listing, steps, titles
from sheet.answers import Key
from sheet.examples import Example
from sheet.layout import Figure, Numbered, Page, Paper
from sheet.listing import Explained
from sheet.markup import Markup, fill, joined, plain, safe, shortened
from sheet.measures import BOLD_BELOW, CAPTION_TOP, Density, length
from sheet.puzzles import Puzzle
from sheet.steps import Move
from sheet.style import style
from sheet.words import Asked

#: Nothing is fetched from anywhere, and nothing is run.
POLICY = "default-src 'none'; style-src 'unsafe-inline'"

WHOLE = Template("""\
<!DOCTYPE html>
<html lang="en"><head><meta charset="utf-8"><title>$title</title>
<meta http-equiv="Content-Security-Policy" content="$policy">
<meta name="viewport" content="width=device-width"><style>$style</style></head>
<body>
$sections</body></html>
""")

SECTION = Template("""\
<section>
<header><h1 dir="auto">$kind<bdi>$title</bdi></h1>$right</header>
$body<footer><span>$sheet</span><code>$again</code><span>$number</span></footer>
</section>
""")
#: The back of a page on which nothing is printed.
BLANK = Markup('<section></section>\n')

NAME = Markup('<p class="name">Name <u></u></p>')
OWN_NAME = Template('<p class="name own" dir="auto"><b>$name</b></p>')
RIGHT = Template('<p class="name">$text</p>')

RULES = Template('<p class="rules"><b>$called</b> $text</p>\n')
PUZZLES = Template('<div class="puzzles columns$columns" style="row-gap:$gap">\n$figures</div>\n')
FIGURE = Template("""\
<figure style="height:$height">$picture<figcaption style="width:$width;height:$caption">
<p class="line" style="height:$line;font-size:$number_font"><b>$number</b><span>$grade</span><i style="font-size:$note_font">$game $size × $size · $code-$label</i></p>
$note$id</figcaption></figure>
""")
ID = Template('<code$bold style="font-size:$font;line-height:$line">$id</code>')
NOTE = Template('<p class="note" dir="auto" style="font-size:$font;max-height:$height;-webkit-line-clamp:$lines">$text</p>\n')
BREAK = Markup('<wbr>')
BOLD = Markup(' class="small"')

#: The sentences on captions and names for which there is no room.
CUT_CAPTION = 'puzzle {label}: the end of its caption is cut off, since {lines} lines have room'
LONG_NAME = 'name {number} is long: its end may be cut off'

#: The word before the title, by the kind of a sheet of paper; nothing above the puzzles.
EXAMPLE, PUZZLES_THEMSELVES, ANSWERS, STEPS = 'Example: ', '', 'Answers: ', 'Steps: '
KINDS = [EXAMPLE, PUZZLES_THEMSELVES, ANSWERS, STEPS]


class Section(NamedTuple):
    """The drawing on one sheet of paper, between its head and its foot."""

    kind: str
    body: Markup
    #: The line with a name, or for one.
    name: Markup = Markup('')


class Content(NamedTuple):
    """The parts of which a sheet is made: the puzzles of each pupil, or of nobody; and where they are asked for, the moves of each and the cards of games."""

    sheets: Sequence[Sequence[Puzzle]]
    names: Sequence[str] = ()
    moves: Sequence[Sequence[Move]] = ()
    examples: Sequence[Example] = ()

    def numbered(self) -> List[List[Numbered]]:
        found = []
        for pupil, sheet in enumerate(self.sheets, 1):
            whose = (pupil, self.names[pupil - 1]) if self.names else (0, '')
            found.append([Numbered(number, puzzle, *whose) for number, puzzle in enumerate(sheet, 1)])
        return found


def _name(page: Page) -> Markup:
    """The line with the pupil's name, or for one."""
    name = page.figures[0].numbered.name
    return fill(OWN_NAME, name=name) if name else NAME


def papers(asked: Asked, title: str) -> Dict[str, Paper]:
    """The pages of each kind. Raises `NoRoom` where the title is too long."""
    return {kind: Paper(asked.paper, asked.large, kind + title, asked.ids_below) for kind in KINDS}


def title_of(asked: Asked) -> str:
    """The one that is asked for, or nothing."""
    return plain(asked.title or '')


class Sheet:
    """Some puzzles, and how they are printed."""

    def __init__(self, content: Content, asked: Asked) -> None:
        """Raises `NoRoom`."""
        self._asked, self._content = asked, content
        self._sheets = content.numbered()
        self._puzzles = [numbered for sheet in self._sheets for numbered in sheet]
        self._title = title_of(asked) or ' and '.join(GAMES[game] for game in layout.games_of(self._puzzles))
        self._papers = papers(asked, self._title)
        self._paper = self._papers[PUZZLES_THEMSELVES]
        #: By this the answer of a puzzle that was cut out is found; by the series the same puzzles can be made again. It is of the first pupil's puzzles: one
        #: name more at the end doesn't change it.
        self._code = hashlib.sha256('\n'.join(each.puzzle.id for each in self._sheets[0]).encode()).hexdigest()[:4].upper()
        self._sheet = f'Sheet {self._code}{asked.source}'
        self._again = self._words() if asked.words else ''
        self._pages = [] if asked.answers == 'only' else [self._planned(sheet) for sheet in self._sheets]

    def _words(self) -> str:
        """The words that make the sheet again, with its title where there is room."""
        room, titled = layout.id_letters(self._paper.width * 3 // 4, self._paper.print.command), self._asked.titled
        return shortened(plain(titled if len(titled) <= room else self._asked.again), room)

    def _planned(self, sheet: Sequence[Numbered]) -> List[Page]:
        """Raises `NoRoom`."""
        if self._asked.per_page is None or self._asked.large:
            return layout.pages(self._paper, sheet)
        return layout.asked_pages(self._paper, sheet, self._asked.per_page)

    def cut(self) -> Iterator[str]:
        """The sentences on names and captions that are too long."""
        room = self._paper.name_room * 100 // self._paper.print.name
        for number, name in enumerate(self._content.names, 1):
            if sum(map(titles.bold_width, name)) > room:
                yield LONG_NAME.format(number=number)
        for page in (page for pages in self._pages for page in pages):
            for figure in page.figures:
                label, puzzle = figure.numbered.label, figure.numbered.puzzle
                if puzzle.caption and self._note_text(page, figure) != puzzle.caption:
                    yield CUT_CAPTION.format(label=label, lines=layout.MOST_NOTES)

    def html(self) -> str:
        # With names each pupil's pages are counted, and so are those of the answers.
        groups = list(self._sections())
        counts = [len(group) if self._content.names else sum(map(len, groups)) for group in groups]
        every: List[Markup] = []
        number = 0
        for group, count in zip(groups, counts):
            # Where both sides are printed each group begins on the front of a sheet of paper.
            every += [BLANK] * (len(every) % 2 if self._asked.duplex else 0)
            number = 0 if self._content.names else number
            every += [self._section(section, f'{number + at} / {count}') for at, section in enumerate(group, 1)]
            number += len(group)
        return fill(WHOLE, policy=Markup(POLICY), title=self._title, style=Markup(style(self._paper, bool(self._content.names))), sections=joined(every))

    def _sections(self) -> Iterator[List[Section]]:
        asked, has_grades, moves = self._asked, self._asked.show_grades != 'none', self._content.moves
        for told in self._content.examples:
            yield [Section(EXAMPLE, body) for body in examples.sections(self._papers[EXAMPLE], told)]
        for pages in self._pages:
            yield [Section(PUZZLES_THEMSELVES, self._body(page), _name(page)) for page in pages]
        if asked.answers != 'none':
            key = Key(self._papers[ANSWERS], has_grades, {each.label: steps.order(some) for each, some in zip(self._puzzles, moves)})
            yield [Section(ANSWERS, body) for body in answers.sections(key, self._puzzles)]
        if moves:
            told_moves = [Explained(each, steps.told(some, asked.all_steps)) for each, some in zip(self._puzzles, moves)]
            yield [Section(STEPS, body) for body in listing.sections(self._papers[STEPS], told_moves, has_grades, asked.all_steps)]

    def _section(self, section: Section, number: str) -> Markup:
        right = section.name or fill(RIGHT, text=f'Sheet {self._code}')
        parts = {'kind': section.kind, 'title': self._title, 'right': right, 'body': section.body}
        return fill(SECTION, sheet=self._sheet, again=self._again, number=number, **parts)

    def _body(self, page: Page) -> Markup:
        rules = (fill(RULES, called=layout.CALLED[game], text=layout.RULES[game].format(last=page.last(game))) for game in page.games)
        figures = joined(self._figure(page, figure) for figure in page.figures)
        return joined([*rules, fill(PUZZLES, columns=page.density.columns, gap=length(page.row_gap), figures=figures)])

    def _figure(self, page: Page, figure: Figure) -> Markup:
        density, (number, puzzle, *_), label = page.density, figure.numbered, figure.numbered.label
        grade = puzzle.grade if self._asked.show_grades == 'all' else ''
        name = drawing.title(f'Puzzle {label}', puzzle.board, grade)
        svg = drawing.picture(puzzle.board, drawing.pen(puzzle.game, figure.side, self._paper.print.strength), name)
        line = density.number_line - CAPTION_TOP
        lengths = {'height': page.height, 'width': figure.caption_width, 'caption': page.caption_height, 'line': line}
        fonts = {'number_font': density.number, 'note_font': density.note}
        return fill(
            FIGURE,
            picture=Markup(drawing.text_of(svg)),
            number=number,
            label=label,
            grade=grade,
            game=GAMES[puzzle.game],
            size=puzzle.size,
            code=self._code,
            note=self._note(page, figure),
            id=self._id(density, puzzle) if self._asked.ids_below else Markup(''),
            **{name: length(value) for name, value in {**lengths, **fonts}.items()},
        )

    def _id(self, density: Density, puzzle: Puzzle) -> Markup:
        """Broken into lines where it may be."""
        bold = BOLD if density.id < BOLD_BELOW else Markup('')
        pieces = joined(map(safe, layout.id_pieces(puzzle.id)), BREAK)
        return fill(ID, bold=bold, font=length(density.id), line=length(density.id_line), id=pieces)

    @staticmethod
    def _note_text(page: Page, figure: Figure) -> str:
        return layout.note(figure.numbered.puzzle, figure.caption_width, page.density.note, page.notes)

    def _note(self, page: Page, figure: Figure) -> Markup:
        """The puzzle's own caption, where it has one."""
        text = self._note_text(page, figure)
        if not text:
            return Markup('')
        return fill(NOTE, font=length(page.density.note), height=length(page.density.note_line * page.notes), lines=page.notes, text=text)
