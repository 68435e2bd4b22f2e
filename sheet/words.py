"""The wishes of the words of the command line."""

from __future__ import annotations

import argparse
import re
import shlex
from typing import Callable, List, NoReturn, Optional, Sequence, Tuple

from playing.board import GAMES
from playing.fair import OFFERED, SEEDS, SIZES
from playing.games import GRADES
from playing.naming import game_called
from sheet.choice import MOST
from sheet.measures import PAPERS
from sheet.seeds import STRIDE

USAGE = """\
usage: {me} GAME [--size W] [--grade GRADE] [--series N] [--count N] [FORM]
       {me} [GAME] --ids FILE [--count N] [FORM]
       {me} --help | --version

Makes a page in HTML with puzzles for print, and their answers. A browser shows
and prints it. GAME is towers, which is also called skyscrapers, or unequal,
also called futoshiki.

Which puzzles:
  --size W         3 to 9; several as 5-7 or 3,5; by default 5
  --grade GRADE    of towers easy or hard; of unequal trivial, easy or tricky;
                   several as easy,hard; by default easy
  --series N       each number has other puzzles; by default 1
  --seed N         those of an older sheet, whose foot says 'number N'
  --count N        how many, up to 200; by default 12, or all of FILE
  --names FILE     a sheet for each name of a file, one a line, each with other
                   puzzles; --count is that of each
  --ids FILE       the puzzles of a file, or of standard input if it is -. Each
                   line has an ID or the name of a save, and then a caption

FORM, how they are printed:
  --per-page N     how many on a page, up to 12; by default up to 6
  --answers WHERE  end, none or only; by default end
  --show-grades WHERE
                   answers, with the answers alone; all, also below the puzzles;
                   or none; by default answers
  --steps          print the order of the answers, and their first steps and
                   the hardest
  --all-steps      print the order of the answers, and all their steps
  --example        begin with the cards of the course, board by board
  --title TEXT     print a title above the puzzles, on as many lines as it takes
  --ids-below      print below each puzzle its ID
  --words          print in the foot the command that makes the sheet again
  --paper PAPER    a4 or letter; by default a4
  --large          print one puzzle on a page, in large print
  --duplex         begin each name, and the answers, on a new sheet of paper
  --output FILE    write the page to this file, not to standard output
  --pdf FILE       print the sheet to this file, with an installed Chromium
  --browser NAME   the Chromium to use for that

Exit status:
  0  the page was written
  1  a file or the program failed
  2  the command line is refused
  3  a puzzle or the list of them is refused; nothing was written
"""

#: The wishes if nothing is said.
SIZE, GRADE, SERIES, COUNT, PAPER = [5], 'easy', 1, 12, 'a4'
MOST_PER_PAGE = 12

#: Where answers are; and grades: the first is what pupils aren't shown.
ANSWERS, GRADES_STAND = ('end', 'none', 'only'), ('answers', 'all', 'none')

#: A number without anything around it.
NUMBER = re.compile('0|[1-9][0-9]*')


class Wrong(Exception):
    """The words can't be read. The text says why."""


class Asked(argparse.Namespace):
    """The wishes, each by the name of its option."""

    games: List[str]
    size: List[int]
    grade: str
    #: The letters of grades.
    letters: List[str]
    #: One of the two, but for a list.
    series: Optional[int]
    seed: Optional[int]
    #: Nothing where all of a list are meant.
    count: Optional[int]
    #: The list of IDs, and that of names.
    ids: Optional[str]
    names: Optional[str]
    #: Nothing where it is as many as come onto a page with large squares.
    per_page: Optional[int]
    answers: str
    show_grades: str
    steps: bool
    all_steps: bool
    example: bool
    title: Optional[str]
    ids_below: bool
    words: bool
    paper: str
    large: bool
    duplex: bool
    output: Optional[str]
    pdf: Optional[str]
    browser: Optional[str]

    @property
    def game(self) -> Optional[str]:
        return self.games[0] if self.games else None

    @property
    def seeds(self) -> Tuple[int, int]:
        """The first seed, and how far the next one is: those of the series, or of the old rule."""
        return (self.series or 0, STRIDE) if self.seed is None else (self.seed, 1)

    @property
    def source(self) -> str:
        """What the foot says of that."""
        return f', number {self.seed}' if self.seed is not None else '' if self.series is None else f', series {self.series}'

    @property
    def again(self) -> str:
        """The words that make the same sheet, but for its title."""
        given = list(self.games)
        usual = {'answers': ANSWERS[0], 'show_grades': GRADES_STAND[0], 'paper': PAPER}
        for name in ('size', 'grade', 'series', 'seed', 'ids', 'count', 'names', 'per_page', *usual):
            value = getattr(self, name)
            if value not in (None, usual.get(name)):
                given += [option(name), ','.join(map(str, value)) if isinstance(value, list) else str(value)]
        switches = ('all_steps' if self.all_steps else 'steps', 'example', 'ids_below', 'words', 'large', 'duplex')
        given += [option(name) for name in switches if getattr(self, name)]
        return ' '.join(['puzzles-sheet', *map(shlex.quote, given)])

    @property
    def titled(self) -> str:
        """The same with its title."""
        return f'{self.again} --title {shlex.quote(self.title)}' if self.title else self.again


def option(name: str) -> str:
    return f'--{name.replace("_", "-")}'


class Parser(argparse.ArgumentParser):
    """It raises what it complains of."""

    def error(self, message: str) -> NoReturn:
        raise Wrong(message)


def read(words: Sequence[str]) -> Asked:
    """Raises `Wrong`."""
    asked = _parser().parse_args(words, Asked())
    asked.games = [game_called(word) or word for word in asked.games]
    for word in asked.games:
        meant = 'size' if NUMBER.match(word) else 'grade' if any(word in grades.values() for grades in GRADES.values()) else ''
        if meant:
            raise Wrong(f"'{word}' is no game: write --{meant} {word}")
    if len(asked.games) > 1 or not set(asked.games) <= set(GAMES) or not (asked.games or asked.ids is not None):
        raise Wrong(f'GAME is {" or ".join(GAMES)}')
    if asked.ids is not None and any(value is not None for value in (asked.size, asked.grade, asked.series, asked.seed, asked.names)):
        raise Wrong('--ids takes no --size, --grade, --series, --seed or --names, since the list has the puzzles')
    if asked.series is not None and asked.seed is not None:
        raise Wrong('--series and --seed: the foot of a sheet has one of them')
    for name in ('ids', 'names', 'output', 'pdf', 'browser'):
        if getattr(asked, name) == '':
            raise Wrong(f'argument --{name}: the name of a file')
    if asked.large and (asked.per_page or 1) > 1:
        raise Wrong('--large has one puzzle on a page')
    if asked.browser and not asked.pdf:
        raise Wrong('--browser goes with --pdf')
    asked.steps = asked.steps or asked.all_steps
    if asked.steps and asked.answers == 'none':
        raise Wrong('--steps goes with answers')
    if asked.ids is None:
        asked.size, asked.grade, asked.count = asked.size or SIZE, asked.grade or GRADE, asked.count or COUNT
        asked.series = SERIES if asked.series is None and asked.seed is None else asked.series
        asked.letters = _letters(asked.games[0], asked.grade)
    return asked


def _parser() -> Parser:
    parser = Parser(add_help=False, allow_abbrev=False)
    parser.add_argument('games', nargs='*')
    parser.add_argument('--size', type=_sizes)
    parser.add_argument('--series', type=_number(0, STRIDE - 1))
    parser.add_argument('--seed', type=_number(0, SEEDS - 1))
    parser.add_argument('--count', type=_number(1, MOST))
    parser.add_argument('--per-page', type=_number(1, MOST_PER_PAGE))
    parser.add_argument('--answers', choices=ANSWERS, default=ANSWERS[0])
    parser.add_argument('--show-grades', choices=GRADES_STAND, default=GRADES_STAND[0])
    parser.add_argument('--paper', choices=list(PAPERS), default=PAPER)
    for name in ('grade', 'ids', 'names', 'title', 'output', 'pdf', 'browser'):
        parser.add_argument(option(name))
    for name in ('steps', 'all_steps', 'example', 'ids_below', 'words', 'large', 'duplex'):
        parser.add_argument(option(name), action='store_true')
    return parser


def _number(least: int, most: int) -> Callable[[str], int]:
    def number(text: str) -> int:
        if not NUMBER.fullmatch(text) or not least <= int(text) <= most:
            raise argparse.ArgumentTypeError(f'a number from {least} to {most}')
        return int(text)

    return number


def _sizes(text: str) -> List[int]:
    """Of `5`, `5-7`, `3,5`, or both."""
    sizes: List[int] = []
    for piece in text.split(','):
        first, _, last = piece.partition('-')
        ends = [int(word) for word in (first, last or first) if NUMBER.fullmatch(word)]
        if len(ends) != 2 or not SIZES[0] <= ends[0] <= ends[1] <= SIZES[-1]:
            raise argparse.ArgumentTypeError(f'{SIZES[0]} to {SIZES[-1]}, several as 5-7 or 3,5')
        sizes += range(ends[0], ends[1] + 1)
    return sizes


def _letters(game: str, text: str) -> List[str]:
    """Of `easy`, or `easy,hard`. Raises `Wrong`, also for grades that no steps of the program have."""
    letters = {GRADES[game][letter]: letter for letter in OFFERED[game]}
    for name in text.split(','):
        if name not in letters:
            made = ' or '.join(', '.join(letters).rsplit(', ', 1))
            raise Wrong(f"argument --grade: {game} from seeds are {made}, not '{name}': --ids prints others")
    return [letters[name] for name in text.split(',')]
