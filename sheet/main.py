"""The words of the command line, what is told, and where the page goes."""

from __future__ import annotations

import os
import signal
import sys
from functools import partial
from typing import Iterable, List, Optional

from playing import files
from playing.command import SIGNALLED, complain, end_by_signals, me, refuse, told_of_itself, with_program
from sheet import choice, examples, lists, pdf, seeds, steps
from sheet.choice import Choice, WrongLines
from sheet.layout import NoRoom
from sheet.pages import Content, Sheet, papers, title_of
from sheet.pdf import NoPdf
from sheet.puzzles import Programs, Unfit
from sheet.words import USAGE, Asked, Wrong, read
from sheet.writing import write


def main(words: List[str], here: str) -> int:
    """Makes a sheet; `here` is the folder of the command. The status is 0 to 3, as USAGE says, or 128 and the number of a signal."""
    status = told_of_itself(words, USAGE, here)
    if status is not None:
        return status
    try:
        asked = read(words)
    except Wrong as wrong:
        return refuse(str(wrong), f"'{me()} --help' lists all options.\n")
    try:
        return with_program(here, partial(make, asked=asked))
    except NoRoom as full:
        return refuse(str(full))
    except NoPdf as lacks:
        complain(f'{me()}: {lacks}')
    except OSError as error:
        complain(f'{me()}: {asked.output or asked.pdf or "standard output"}: {files.why(error)}')
    except KeyboardInterrupt:
        return SIGNALLED + signal.SIGINT
    return 1


def make(path: str, asked: Asked) -> int:
    """Raises `Gone`, `NoRoom` or `NoPdf`, or `OSError` where the page can't be written. The file that was begun is taken away if a signal ends it."""
    end_by_signals()
    # Mistakes in the words alone are told before puzzles are made.
    papers(asked, title_of(asked))
    browser = pdf.found(asked.browser) if asked.pdf else ''
    try:
        with Programs(path) as programs, Progress() as progress:
            names = lists.names_of(asked.names) if asked.names is not None else []
            chosen = chosen_by(programs, asked, max(1, len(names)), progress)
            moves = [steps.found(programs, puzzle) for puzzle in chosen.puzzles] if asked.steps else []
            games = dict.fromkeys(puzzle.game for puzzle in chosen.puzzles) if asked.example else {}
            example = [examples.example(programs, game) for game in games]
    except WrongLines as wrong:
        return unfit(wrong.told)
    except Unfit as reason:
        return unfit([str(reason)])
    sheet = Sheet(Content(chosen.sheets, names, moves, example), asked)
    page = sheet.html().encode()
    if asked.pdf:
        write(asked.pdf, pdf.printed(browser, page, os.path.dirname(asked.pdf)))
    if asked.output or not asked.pdf:
        write(asked.output, page)
    for text in [*chosen.told, *sheet.cut()]:
        complain(text)
    return 0


def unfit(told: Iterable[str]) -> int:
    """Says why nothing is written."""
    for text in told:
        complain(text)
    return 3


def chosen_by(programs: Programs, asked: Asked, pupils: int, progress: Progress) -> Choice:
    """Raises `Unfit` or `WrongLines`."""
    if asked.ids is not None:
        progress.count = asked.count
        return choice.of_list(programs, lists.lines_of(asked.ids), asked.game, asked.count, progress)
    assert asked.game and asked.count, 'without a list these are asked for'
    progress.count = asked.count * pupils
    every = seeds.kinds(asked.game, asked.size, asked.letters)
    wanted = seeds.shared(every, asked.count)
    found = choice.of_seeds(programs, asked.seeds, wanted, pupils, progress)
    return found._replace(told=[*seeds.uneven(every, wanted), *found.told])


class Progress:
    """A line on the terminal that tells how many puzzles there are; nothing elsewhere."""

    def __init__(self) -> None:
        #: How many there are to be, where that is known.
        self.count: Optional[int] = None
        self._is_shown = sys.stderr.isatty()

    def __enter__(self) -> Progress:
        return self

    def __exit__(self, *_: object) -> None:
        self._show('')

    def __call__(self, number: int) -> None:
        self._show(f'{number} of {self.count}' if self.count else f'{number} puzzles')

    def _show(self, text: str) -> None:
        if self._is_shown:
            print(f'\r\x1b[K{text}', end='', file=sys.stderr, flush=True)
