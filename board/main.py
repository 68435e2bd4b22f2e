"""The words of the command line, and which front end it is."""

from __future__ import annotations

import os
import signal
import sys
from functools import partial
from typing import TYPE_CHECKING, List, NamedTuple, Optional, Sequence, Tuple

from playing.board import GAMES
from playing.choices import are_words, choice_of, first, ids, unread, without_number
from playing.command import SIGNALLED, complain, me, refuse, told_of_itself, unwritten, with_program, written
from playing.course import OVER, Course
from playing.game import Game, Start, is_there
from playing.naming import game_called
from playing.printable import printable
from playing.state import State
from playing.typed import is_number

if TYPE_CHECKING:
    from board.screen import Screen

USAGE = """\
usage: {me} [--lines] [GAME] [ID or FILE]
       {me} [--lines] [GAME] [SIZE] [GRADE] [number N or today]
       {me} [--lines] learn [GAME]
       {me} --ids [GAME] [SIZE] [GRADE] [number N or today] [COUNT]
       {me} --help | --version

GAME is towers, which is also called skyscrapers, or unequal, also called
futoshiki. Without an ID or a file the last game is continued; if there is
none, a new one begins. ? shows the keys. With --lines, or on a terminal
without a screen, you play by lines of text, and 'help' lists them. This works
in a pipe, too. For scripts there is puzzles-json GAME.

FILE is a save, or a text with printed puzzles, as they are drawn or copied, or
with IDs. A drawing is shown on the desk first, and p plays it there. If there
are several, you choose one. puzzles-check --help has a drawing of each game.

A SIZE from 3 to 9 or a GRADE begins a new game. The grades of Towers are easy,
hard, extreme and unreasonable; those of Unequal are trivial, easy, tricky,
extreme and recursive. Games up to hard or tricky go by numbers, and none needs
a guess. The same number N is always the same game, and today is the game of
the date, for everybody. The other grades have stored puzzles. --ids prints the
IDs of such games, one a line, and plays none.

learn is a course of two minutes: small boards on which one number follows, and
what to look for. No game is kept or changed by it.
"""


#: The word for the course.
LEARN = 'learn'


class Words(NamedTuple):
    """The wishes of the command line."""

    game: Optional[str]
    #: An ID or a file.
    what: str = ''
    #: A size, a grade, and what else says which new game it is to be.
    kind: Sequence[str] = ()
    is_lines: bool = False
    #: How many IDs are to be printed, where some are.
    ids: int = 0
    is_course: bool = False


def main(words: List[str], here: str) -> int:
    """Plays; `here` is the folder of the command. The status is 0 to 3, as the program's own, or 128 and the number of a signal."""
    status = told_of_itself(words, USAGE, here)
    if status is not None:
        return status
    asked = read(words)
    if asked is None:
        return refuse(fault(words), tip(words), USAGE.format(me=me()))
    if not (asked.ids or asked.is_lines or (sys.stdin.isatty() and sys.stdout.isatty())):
        return refuse(f'the board is for a terminal; in a pipe use --lines, or the program itself, puzzles {asked.game or "GAME"}')
    try:
        return with_program(here, partial(play, asked=asked))
    except BrokenPipeError as error:
        # Nobody reads on. The game is kept.
        return unwritten(error)
    except KeyboardInterrupt:
        return SIGNALLED + signal.SIGINT


def read(words: List[str]) -> Optional[Words]:
    """The wishes of the words; nothing where they can't be read. An empty word is none."""
    game, plain = parted(words)
    if any(word.startswith('-') for word in plain) or {'--lines', '--ids'} <= set(words):
        return None
    if '--ids' in words:
        count = plain.pop() if has_count(plain) else '1'
        return Words(game, kind=plain, ids=int(count)) if int(count) > 0 and (are_words(plain) or not plain) else None
    asked = Words(game, is_lines='--lines' in words)
    if plain == [LEARN]:
        return asked._replace(is_course=True)
    if are_words(plain) and not (len(plain) == 1 and is_there(plain[0])):
        return asked._replace(kind=plain)
    # A file says itself which game it is of.
    is_read = not plain or (len(plain) == 1 and (game or is_there(plain[0])))
    return asked._replace(what=''.join(plain)) if is_read else None


def parted(words: List[str]) -> Tuple[Optional[str], List[str]]:
    """The game that is named, and the words that are neither this nor an option. That for the course may stand before the game."""
    plain = [game_called(word) or word for word in words if word not in ('--lines', '--ids', '')]
    if plain[:1] == [LEARN] and plain[1:2] and plain[1] in GAMES:
        plain[:2] = [plain[1], LEARN]
    return (plain[0], plain[1:]) if plain and plain[0] in GAMES else (None, plain)


def has_count(plain: List[str]) -> bool:
    """Whether the last word is how many IDs there are to be: not the size, which is the first number, nor the number of a game."""
    others = without_number(plain)[0]
    return sum(map(is_number, others)) > 1 and is_number(plain[-1]) and others[-1:] == plain[-1:]


def fault(words: List[str]) -> str:
    """Which of some words can't be read."""
    game, plain = parted(words)
    option = next((word for word in plain if word.startswith('-')), None)
    if option is not None:
        return f"there is no option '{option}'"
    if LEARN in plain:
        return f"'{LEARN}' takes the name of a game and --lines, and nothing else"
    if '--lines' in words and '--ids' in words:
        return '--ids plays no game, by lines or otherwise'
    if is_id(plain):
        return f"'{plain[0]}' fits both games: type its game before it"
    # Where an ID or a file was named the next word is one too many.
    word = plain[1] if len(plain) > 1 and (is_id(plain[:1]) or is_there(plain[0])) else unread(plain)
    if word is None:
        return f"'{''.join(plain[-1:])}' is not a number of IDs"
    if '/' in word and len(plain) == 1:
        return f"there is no file '{word}'"
    return f"'{word}' is not a size or a grade" if game or len(plain) > 1 else f"'{word}' is not a game, a size, a grade or a file"


def is_id(plain: List[str]) -> bool:
    """Whether that is a game ID alone, which fits both games."""
    return len(plain) == 1 and plain[0][:1].isdigit() and bool(set(plain[0]) & set(':#!'))


def tip(words: List[str]) -> str:
    """A line on words that can't be read, where it is plain what was meant."""
    return f"Did you mean {me()} towers '{printable(words[0])}'?\n" if is_id(words) else ''


def play(path: str, asked: Words) -> int:
    """Raises `Unknown` where there is no such game as the words say."""
    state = State(os.environ)
    game = asked.game or state.last(GAMES) or 'towers'
    if asked.is_course:
        course = Course(path, game)
        status = by_turns(course, Start(game), asked.is_lines)
        return status or (written(OVER) if course.is_over else 0)
    choice = choice_of(asked.kind, first(state, game)) if asked.kind or asked.ids else None
    if choice and asked.ids:
        return written(''.join(f'{id}\n' for id in ids(path, choice, asked.ids)))
    return by_turns(Game(path, state), Start(game, asked.what, choice), asked.is_lines)


def by_turns(game: Game, start: Start, is_lines: bool) -> int:
    """The game in lines or on the board, and in the other one where the player changes to it. The status at the end."""
    while True:
        status = in_lines(game, start) if is_lines else on_screen(game, start)
        if status is not None:
            return status
        is_lines = not is_lines


def in_lines(game: Game, start: Start) -> Optional[int]:
    """The line mode; nothing where the player goes on with the board."""
    from board.course_lines import CourseLines
    from board.desk_lines import GameLines

    front = CourseLines(game, has_screen) if isinstance(game, Course) else GameLines(game, has_screen)
    return front.run(start)


def on_screen(game: Game, start: Start) -> Optional[int]:
    """The board; nothing where it can't be shown, or the player goes on in lines of text."""
    screen = new_screen()
    if screen is None:
        return None
    from board.course_screen import CourseScreen
    from board.desk_screen import GameScreen

    with screen:
        front = CourseScreen(screen, game) if isinstance(game, Course) else GameScreen(screen, game)
        refusal = front.begin(start)
        if not refusal:
            front.run()
    if refusal:
        complain(refusal)
        return 3
    return None if front.wants_lines else 0


def has_screen() -> bool:
    return new_screen() is not None


def new_screen() -> Optional[Screen]:
    """The terminal as a screen; nothing where it can't show a board."""
    if not (sys.stdin.isatty() and sys.stdout.isatty()):
        return None
    try:
        from board.screen import Screen, Unfit
    except ImportError:
        return None
    try:
        return Screen()
    except Unfit:
        return None
