"""Files and standard input, as they come: their game IDs, drawings and saves, each with its line. Little is kept, however long they are."""

from __future__ import annotations

import contextlib
import os
import sys
from typing import ContextManager, Generator, Iterator, List, NamedTuple, Optional, Sequence, Union

from check.words import STANDARD_INPUT
from playing import drawings, files, saves

#: The bytes with which a file may begin and that are no text, and how many bytes are read at once.
BOM, PIECE = b'\xef\xbb\xbf', 1 << 16

#: So many bytes a line has at most.
MOST_BYTES = 4096


class Id(NamedTuple):
    """An ID, and the game that is named for it; '' where none is."""

    game: str
    text: str


class Drawn(NamedTuple):
    """A puzzle that is drawn, and what could have been lost in it; '' where nothing could."""

    puzzle: drawings.Puzzle
    doubt: str


class Save(NamedTuple):
    content: bytes


class Unread(NamedTuple):
    """A text that can't be read, and why; with a drawing that could be read, of a game, where one is lacking."""

    why: str
    game: str = ''
    form: Sequence[str] = ()


class Entry(NamedTuple):
    """A puzzle, as it was written, and where it stands. Its line is counted from 1, and there is none of what is told of a file as a whole."""

    file: str
    line: Optional[int]
    written: Union[Id, Drawn, Save, Unread]


def entries(file: str) -> Iterator[List[Entry]]:
    """The pieces of a file as they come: each time all that is there."""
    reader = Reader(file)
    try:
        with _opened(file) as descriptor:
            while True:
                piece = os.read(descriptor, PIECE)
                found = list(reader.take(piece) if piece else reader.end())
                yield found
                if not piece or reader.is_over:
                    return
    except (OSError, ValueError) as error:
        yield [Entry(file, None, Unread(f"it can't be read ({files.why(error)})"))]


def _opened(file: str) -> ContextManager[int]:
    if file == STANDARD_INPUT:
        if sys.stdin is None:
            raise OSError('it is closed')
        return contextlib.nullcontext(sys.stdin.fileno())
    return _closing(os.open(file, os.O_RDONLY | os.O_NOCTTY | os.O_CLOEXEC))


@contextlib.contextmanager
def _closing(descriptor: int) -> Iterator[int]:
    try:
        yield descriptor
    finally:
        os.close(descriptor)


class Reader:
    """The kind of a file, so far."""

    def __init__(self, file: str) -> None:
        #: Whether what comes now doesn't matter.
        self.is_over = False
        self._file = file
        #: The line that has begun, as far as it isn't too long, and its number.
        self._begun = b''
        self._number = 1
        self._drawings = drawings.Reader()
        #: The save that has begun, which goes on up to the next one.
        self._save: Optional[bytearray] = None
        self._is_empty = True

    def take(self, piece: bytes) -> Iterator[Entry]:
        """The puzzles that are whole with the next piece."""
        while piece:
            piece = yield from (self._lines(piece) if self._save is None else self._saves(piece))

    def end(self) -> Iterator[Entry]:
        """The puzzles that are whole with the end."""
        while self._save is not None:
            yield from self.take((yield from self._end_save(bytes(self._save))))
        yield from self._line(self._begun)
        yield from self._entries(self._drawings.end())
        if self._is_empty:
            yield Entry(self._file, None, Unread('it has no puzzles'))

    # --- saves; each of these gives what is still to be read ---

    def _saves(self, piece: bytes) -> Generator[Entry, None, bytes]:
        """A save may come after another one."""
        assert self._save is not None
        begin = max(len(self._save) - len(saves.BEGINS), 0)
        self._save += piece
        at = self._save.find(b'\n' + saves.BEGINS, begin)
        if at >= 0:
            content = bytes(self._save)
            return (yield from self._end_save(content[: at + 1])) + content[at + 1 :]
        if len(self._save) > files.MOST_BYTES:
            self.is_over = True
            self._save, self._is_empty = None, False
            yield Entry(self._file, self._number, Unread(f'the save has more than {files.MOST_BYTES:,} bytes'))
        return b''

    def _end_save(self, content: bytes) -> Generator[Entry, None, bytes]:
        """A whole save, without the lines that come after its last state."""
        self._save, self._is_empty = None, False
        rest = saves.after(content)
        yield Entry(self._file, self._number, Save(content[: len(content) - len(rest)]))
        self._number += content[: len(content) - len(rest)].count(b'\n')
        self._drawings = drawings.Reader(self._number - 1)
        return rest

    # --- lines ---

    def _lines(self, piece: bytes) -> Generator[Entry, None, bytes]:
        begun = self._begun + piece
        while begun:
            if self._number == 1 and begun.startswith(BOM):
                begun = begun[len(BOM) :]
            line, end, rest = begun.partition(b'\n')
            before, begins, _ = line.partition(saves.BEGINS)
            if begins:
                # It is no title, wherever in its line it begins.
                yield from self._line(before)
                yield from self._entries(self._drawings.end())
                self._begun, self._save = b'', bytearray()
                return begun[len(before) :]
            if not end:
                break
            yield from self._line(line)
            self._number += 1
            begun = rest
        self._begun = begun[: MOST_BYTES + 1]
        return b''

    def _line(self, content: bytes) -> Iterator[Entry]:
        is_long = len(content) > MOST_BYTES
        if is_long:
            self._is_empty = False
            yield Entry(self._file, self._number, Unread(f'the line has more than {MOST_BYTES:,} bytes'))
        yield from self._entries(self._drawings.take('' if is_long else content.decode('utf-8', 'replace').rstrip('\r\n')))

    def _entries(self, found: Iterator[drawings.Read]) -> Iterator[Entry]:
        for read in found:
            self._is_empty = False
            yield Entry(self._file, read.line, _written(read))


def _written(read: drawings.Read) -> Union[Id, Drawn, Unread]:
    if read.puzzle:
        return Drawn(read.puzzle, read.doubt)
    place = f'column {read.column}: ' if read.column else ''
    return Id(read.game, read.id) if read.id else Unread(f'{place}{read.why}', read.game, read.form)
