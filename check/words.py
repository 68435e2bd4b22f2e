"""The wishes of the words of the command line."""

from __future__ import annotations

import argparse
import os
import stat
import sys
from typing import List, NamedTuple, NoReturn, Optional, Sequence

USAGE = """\
usage: {me} [--json | --draw | --table] [--solutions] [--quick] [FILE ...]
       {me} --certificate FILE [--needed] [--seconds S] [--megabytes M] ...
       {me} --help | --version

Says of each puzzle whether it has no, one or several solutions. FILE has
puzzles as they are drawn or copied, game IDs, one on a line, and save files.
Words between them are titles; a game that is named there (towers, skyscrapers,
unequal, futoshiki) is that of the next one. Without FILE, or if it is -,
standard input is read, and each puzzle is answered as it comes.

A drawing of Skyscrapers and one of Futoshiki:

    2 3 1          .<. .
  2 . . . -        ^ - -
  - . . 1 -        . . 2
  - . . . 3        - - v
    - - -          . .>.

An empty square may be . _ 0 x * ? -, and a place without a clue - or as well
nothing. Spaces, bars, ruled lines, tabs and commas may stand between.

A line for each puzzle has six columns, with tabs between:
  FILE:LINE   where it stands
  GAME        towers or unequal
  SOLUTIONS   none, one or several
  GRADE       the letter of the least grade by whose steps it follows, or -
  SPARE       of one solution: how many items could be left out, each by
              itself, so that it follows by that grade; otherwise -
  ID          its game ID
If it has none, a last one says in words which other number or sign would give
it one, or without which items it has one.

Options:
  --json        write an object for each puzzle and not a line
  --draw        write each puzzle as a drawing, as the usual program copies it
  --table       write it as a table with tabs, for a spreadsheet
  --solutions   write up to two solutions of each below it
  --quick       don't seek what could be left out, or is to blame, which takes
                most of the time
  --certificate FILE
                write why each puzzle has so many solutions, a line for each, as
                docs/CERTIFICATES.md says: verify.py checks it without this
                program. FILE is written anew; - is standard output, which then
                has nothing else. A line of the puzzle has a seventh column: how
                many numbers had to be supposed, or "no certificate"
  --needed      certificates also show of one solution that each item is needed,
                if that is so
  --seconds S   a certificate may take so long, 60 if not told
  --megabytes M it may have so many megabytes, 5 if not told, at most 16
  -h, --help    show this help
  -V, --version show the version

Exit status:
  0  each puzzle has exactly one solution
  1  one has none or several
  2  something can't be read, and a line on standard error names its file and
     line, or the command line is refused
  3  the program failed, or the output can't be written
  4  one has no certificate within the limits, whatever the others have
"""

#: The file that is standard input, and for certificates standard output.
STANDARD_INPUT = STANDARD_OUTPUT = '-'

#: The limits of a certificate's time and length, of those that can be asked for; verify.py refuses longer ones.
MOST_SECONDS, MOST_MEGABYTES = 1_000_000, 16


class Limits(NamedTuple):
    """How long a certificate may take, and how long it may be."""

    seconds: float
    bytes: int


class Wrong(Exception):
    """The words can't be read. The text says why."""


class Asked(NamedTuple):
    files: List[str]
    as_objects: bool
    as_drawing: bool
    as_table: bool
    has_solutions: bool
    has_spare: bool
    #: Where certificates go, if they are asked for; what they may take and have, and whether they show that each item is needed.
    certificate: Optional[str]
    limits: Limits
    has_needed: bool

    @property
    def has_boards(self) -> bool:
        """Whether the items of each puzzle are wanted."""
        return self.as_objects or self.as_drawing or self.as_table


class Parser(argparse.ArgumentParser):
    """It raises what it complains of."""

    def error(self, message: str) -> NoReturn:
        raise Wrong(message)


def read(words: Sequence[str]) -> Asked:
    """Raises `Wrong`."""
    parser = Parser(add_help=False, allow_abbrev=False)
    parser.add_argument('files', nargs='*')
    for option in ('--json', '--draw', '--table', '--solutions', '--quick'):
        parser.add_argument(option, action='store_true')
    parser.add_argument('--certificate', metavar='FILE')
    parser.add_argument('--needed', action='store_true')
    parser.add_argument('--seconds', type=float, metavar='S')
    parser.add_argument('--megabytes', type=float, metavar='M')
    found = parser.parse_args(words)
    if found.json + found.draw + found.table > 1:
        raise Wrong('--json, --draw and --table exclude one another')
    if '' in [*found.files, found.certificate]:
        raise Wrong('FILE is the name of a file')
    is_drawn = found.draw or found.table
    return Asked(
        files=found.files or [STANDARD_INPUT],
        as_objects=found.json,
        as_drawing=found.draw,
        as_table=found.table,
        has_solutions=found.solutions and not is_drawn,
        has_spare=not (found.quick or is_drawn),
        certificate=found.certificate,
        limits=_limits(found),
        has_needed=found.needed,
    )


def _is_read(certificate: str, files: Sequence[str]) -> bool:
    """Whether the file of certificates, by this name or another one, is among those that are read, which it would empty."""
    if certificate in files:
        return True
    try:
        written = os.stat(certificate)
    except OSError:
        # It isn't there yet.
        return False
    return stat.S_ISREG(written.st_mode) and any(_is_same(name, written) for name in files)


def _is_same(name: str, written: os.stat_result) -> bool:
    try:
        return os.path.samestat(os.stat(sys.stdin.fileno() if name == STANDARD_INPUT and sys.stdin else name), written)
    except (OSError, ValueError):
        # The reading says why it can't be read.
        return False


def _limits(found: argparse.Namespace) -> Limits:
    """The time that a certificate may take. Raises `Wrong`."""
    if found.certificate not in (None, STANDARD_OUTPUT) and _is_read(found.certificate, found.files or [STANDARD_INPUT]):
        raise Wrong(f'certificates are written to {found.certificate}, which is read')
    if found.certificate is None and (found.needed or found.seconds is not None or found.megabytes is not None):
        raise Wrong('--needed, --seconds and --megabytes go with --certificate FILE')
    seconds, megabytes = 60 if found.seconds is None else found.seconds, 5 if found.megabytes is None else found.megabytes
    if not (0 < seconds <= MOST_SECONDS and 0 < megabytes <= MOST_MEGABYTES):
        raise Wrong(f'--seconds are above 0 and up to {MOST_SECONDS:,}, and --megabytes above 0 and up to {MOST_MEGABYTES}')
    return Limits(seconds, int(megabytes * 1_000_000))
