"""The save that most of these tests edit, and what has to come of a text that is loaded."""

from typing import Iterable, Mapping, NamedTuple, Sequence

from tests.harness.game import save_text
from tests.lines.runs import Run

#: A game of Towers with two moves, of which one was undone, line by line.
SAMPLE = save_text(2, 2).splitlines()

#: Other lines in place of those with these numbers, counted from 0.
Edits = Mapping[int, Sequence[bytes]]


class Loaded(NamedTuple):
    """A text to be loaded, and what is then written of it; or the refusal, whose name and number stand on standard error."""

    name: str
    text: bytes
    written: bytes = b''
    refusal: str = ''
    game: str = 'towers'


def text_of(lines: Iterable[bytes], end: bytes = b'\n') -> bytes:
    """Lines, each with what ends it."""
    return b''.join(line + end for line in lines)


def edited(edits: Edits) -> bytes:
    return b''.join(text_of(edits.get(place, [line])) for place, line in enumerate(SAMPLE))


def run_of(row: Loaded) -> Run:
    """Loads the text and saves at once, under another name."""
    words = [row.game, '--load', 'old.sav', '--save', 'new.sav']
    given = {'old.sav': row.text}
    if row.refusal:
        return Run(row.name, words, given=given, status=3, error=f'refused: {row.refusal}\n'.encode(), absent=['new.sav'])
    return Run(row.name, words, given=given, holds={'new.sav': row.written})
