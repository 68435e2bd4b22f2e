"""Printed puzzles in a file that is no save: drawings and IDs, and the sentences on them."""

from __future__ import annotations

from typing import List, NamedTuple, Sequence

from playing.drawings import Puzzle, Read, read

#: So many bytes of a file are looked at.
MOST_BYTES = 100_000

SEVERAL = '{file} has {count} puzzles: one of them is taken.'
NONE_CHOSEN = 'No puzzle was taken.'
FORMS = "'puzzles-check --help' shows drawings that can be read."
NOR = f'Nor is a puzzle drawn in it: {FORMS}'
TOO_LONG = f'It has more than {MOST_BYTES:,} bytes, so no printed puzzle is sought in it.'


class Printed(NamedTuple):
    """A puzzle that was read from a drawing, and the sentences by which that is told."""

    puzzle: Puzzle
    told: str


def found_in(content: bytes) -> List[Read]:
    """The puzzles of a file, and why others are none."""
    return read(content.decode('utf-8', 'replace')) if len(content) <= MOST_BYTES else []


def nor(content: bytes) -> str:
    """The sentence on a file in which none was found."""
    return NOR if len(content) <= MOST_BYTES else TOO_LONG


def puzzles_of(found: Sequence[Read]) -> List[Read]:
    """Those that can be taken."""
    return [one for one in found if one.puzzle or one.id]


def row(one: Read) -> str:
    """A puzzle in a list."""
    return f'line {one.line}: {one.puzzle.called if one.puzzle else one.id}'


def game_of(one: Read, present: str) -> str:
    """The game of an ID. The descriptions of Towers alone have strokes in them; a seed is of both games."""
    return one.game or ('towers' if '/' in one.id else 'unequal' if ':' in one.id else present)


def printed(one: Read, puzzle: Puzzle, file: str, found: Sequence[Read]) -> Printed:
    """The drawing that was taken: all that was read of it, and what couldn't be read beside it."""
    told = [f'Read in line {one.line} of {file}: {puzzle.called}.', f'Note: {one.doubt}.' if one.doubt else '', fault(file, found)]
    return Printed(puzzle, ' '.join(filter(None, told)))


def fault(file: str, found: Sequence[Read]) -> str:
    """The sentence on the first text that can't be read; nothing if there is none."""
    odd = next((one for one in found if one.why), None)
    column = f', column {odd.column}' if odd and odd.column else ''
    return f'{file}, line {odd.line}{column}: {odd.why}.' if odd else ''
