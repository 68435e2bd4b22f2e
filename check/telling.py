"""A line or an object for each puzzle, and how far it is."""

from __future__ import annotations

import errno
import json
import os
import sys
import time
from typing import Any, Dict, Iterator, List, Mapping, Optional, Set

from check.asking import ANY, Found, Misread
from check.certificates import Certified
from check.words import STANDARD_OUTPUT, Asked
from playing.board import GAMES
from playing.command import complain, me
from playing.drawings import writing
from playing.naming import clue_name, name
from playing.printable import printable
from playing.shared_texts import SO_DRAWN

#: So many seconds are between two tellings of how far it is.
PAUSE = 0.2

#: The sentences on a puzzle whose certificate would take too long, or be too long.
NO_CERTIFICATE = 'no certificate'


def place(file: str, line: Optional[int]) -> str:
    return printable(file) if line is None else f'{printable(file)}:{line}'


def line_of(found: Found, certified: Optional[Certified]) -> str:
    """Six columns, one of the certificate, one on what is to blame that there is no solution, and below them the solutions, if these were asked for."""
    spare = found.spare.get(found.grade or ANY) if found.completable == 'one' else None
    count = '-' if spare is None else str(sum(map(len, spare.values())))
    columns = [place(found.file, found.line), found.game, found.completable, found.grade or '-', count, found.id]
    if certified:
        columns.append(NO_CERTIFICATE if certified.suppositions is None else str(certified.suppositions))
    columns += [found.blame.told] if found.blame else []
    rows = (_rows(numbers) for numbers in found.solutions or [])
    return '\n'.join(['\t'.join(columns), *(f'\t{row}' for row in rows)])


def drawing_of(found: Found, is_table: bool) -> str:
    """A title and the puzzle as a drawing."""
    if found.puzzle is None:
        return ''
    drawn = writing.tabbed(found.puzzle) if is_table else writing.copied(found.puzzle)
    return f'{GAMES[found.game]} {found.puzzle.size}x{found.puzzle.size}\n\n{drawn}'


def _rows(numbers: Any) -> str:
    """A solution, row by row."""
    size = int(len(numbers) ** 0.5)
    return ' '.join(''.join(map(str, numbers[at : at + size])) for at in range(0, len(numbers), size))


def object_of(found: Found, certified: Optional[Certified]) -> str:
    """All that is known, as an object on one line."""
    by_any, by_grade = found.spare.get(ANY), found.spare.get(found.grade or ANY) if found.grade else None
    told: Dict[str, Any] = {
        'file': found.file,
        'line': found.line,
        'game': GAMES[found.game],
        'completable': found.completable,
        'grade': found.grade,
        'spare': by_any,
        'spareNames': None if by_any is None else [*_names(by_any, found)],
        'spareByGrade': by_grade,
        'spareByGradeNames': None if by_grade is None else [*_names(by_grade, found)],
        'id': found.id,
        'doubt': found.doubt or None,
    }
    if found.blame:
        told.update(mends=found.blame.mends, pairs=found.blame.pairs)
    if found.solutions is not None:
        told['solutions'] = found.solutions
    if certified:
        told['suppositions'] = certified.suppositions
    return json.dumps(told, separators=(',', ':'))


def _names(spare: Mapping[str, List[Any]], found: Found) -> Iterator[str]:
    """The names of items, in the order in which they are told: clues, givens and signs."""
    size = int(found.id[0])
    numbers = dict(item.partition(' ')[2].rsplit(',', 1) for item in found.puzzle.items) if found.puzzle else {}
    for clue in spare['clues']:
        x, y = clue['x'], clue['y']
        yield clue_name((x, y), int(numbers.get(f'{x},{y}', '0')), size)
    for cell in spare['givens']:
        yield name((cell % size, cell // size))
    for sign in spare['signs']:
        greater, less = (name((sign[which] % size, sign[which] // size)) for which in ('greater', 'less'))
        yield f'{greater} greater than {less}'


class Telling:
    """Writes what is found to standard output, and what can't be read to standard error; on a terminal also how far it is."""

    def __init__(self, asked: Asked) -> None:
        self._asked = asked
        #: The games of which a form was shown.
        self._shown_forms: Set[str] = set()
        #: Certificates alone go to standard output then.
        self._is_silent = asked.certificate == STANDARD_OUTPUT
        #: Where the lines themselves come onto a terminal, these show how far it is; of a certificate, which may take a minute, they don't.
        has_lines = bool(sys.stdout and sys.stdout.isatty()) and asked.certificate in (None, STANDARD_OUTPUT)
        self._is_shown = bool(sys.stderr and sys.stderr.isatty() and not has_lines)
        self._state = ''
        self._next = time.monotonic() + PAUSE
        self._shown = ''

    def __enter__(self) -> Telling:
        return self

    def __exit__(self, *_: object) -> None:
        self._show('')

    def found(self, found: Found, certified: Optional[Certified]) -> None:
        """Raises `OSError` where it can't be written."""
        if self._is_silent:
            if certified and certified.suppositions is None:
                self.misread(Misread(found.file, found.line, NO_CERTIFICATE))
            return
        self._show('')
        if sys.stdout is None:
            raise OSError(errno.EBADF, os.strerror(errno.EBADF))
        if found.doubt and not self._asked.as_objects:
            self._tell(found.file, found.line, f'note: {found.doubt}')
        if self._asked.as_objects:
            text = object_of(found, certified)
        elif self._asked.as_drawing or self._asked.as_table:
            text = drawing_of(found, self._asked.as_table)
        else:
            text = line_of(found, certified)
        sys.stdout.write(f'{text}\n')
        sys.stdout.flush()

    def misread(self, wrong: Misread) -> None:
        """With a form of the game that would do, the first time."""
        self._tell(wrong.file, wrong.line, wrong.why)
        if wrong.form and wrong.game not in self._shown_forms:
            self._shown_forms.add(wrong.game)
            for line in (SO_DRAWN, *(f'  {line}' for line in wrong.form)):
                complain(f'  {line}')

    def _tell(self, file: str, line: Optional[int], text: str) -> None:
        self._show('')
        complain(f'{me()}: {place(file, line)}: {text}')

    def progress(self, file: str, answered: int, read: int) -> None:
        """So many puzzles of a file were answered, of those that were read so far."""
        self._state = f'{printable(file)}: {answered:,} of {read:,} puzzles'
        self.beat()

    def beat(self, more: str = '') -> None:
        """It is at work, of which there may be more to tell."""
        if self._is_shown and time.monotonic() >= self._next:
            self._show(self._state + more)
            self._next = time.monotonic() + PAUSE

    def _show(self, text: str) -> None:
        if self._is_shown and text != self._shown:
            print(f'\r\x1b[K{text}', end='', file=sys.stderr, flush=True)
            self._shown = text
