"""Puzzles that are given: IDs of either game and save files, one a line, each with its caption."""

from __future__ import annotations

import contextlib
import itertools
import sys
from typing import BinaryIO, ContextManager, Iterable, Iterator, List, NamedTuple, Optional

from playing import files, saves, texts
from playing.board import GAMES
from playing.game import is_there
from playing.naming import game_called
from playing.printable import printable
from playing.program import Gone, Refused, started_with
from sheet.markup import plain
from sheet.puzzles import Programs, Puzzle, Unfit, proved

#: A class has no more pupils.
MOST_NAMES = 200

#: The file that is standard input.
STANDARD_INPUT = '-'

#: The bytes with which a list may begin and that are no text, and how many bytes are read at once.
BOM, PIECE = b'\xef\xbb\xbf', 1 << 16

#: The letter in the place of bytes that are none.
NO_LETTER = '\ufffd'


class Line(NamedTuple):
    #: Counted from 1.
    number: int
    text: str
    #: The content of a save, where the list is none and is this save itself.
    save: bytes = b''


def lines_of(file: str, things: str = 'puzzles') -> Iterator[Line]:
    """The lines of a list that say something, as they come. Raises `Unfit` where it can't be read, or says nothing."""
    is_empty = True
    try:
        with _opened(file) as stream:
            content = stream.read(len(saves.BEGINS))
            if content.startswith(saves.BEGINS):
                yield Line(1, '', content + b''.join(_pieces(stream, file)))
                return
            # A list of another system may have a mark at its beginning, and CR at the ends of lines.
            content = content[len(BOM) :] if content.startswith(BOM) else content
            for line in _lines(itertools.chain([content], _pieces(stream, file))):
                is_empty = False
                yield line
    except (OSError, ValueError) as error:
        raise Unfit(f"{_called(file)} can't be read ({files.why(error)})") from error
    if is_empty:
        raise Unfit(f'{_called(file)} has no {things}')


def names_of(file: str) -> List[str]:
    """The names of a file, one a line. Raises `Unfit`."""
    lines = list(itertools.islice(lines_of(file, 'names'), MOST_NAMES + 1))
    if len(lines) > MOST_NAMES:
        raise Unfit(f'{_called(file)} has more than {MOST_NAMES} names')
    if any(line.save for line in lines):
        raise Unfit(f'{_called(file)} is a save, and no list of names')
    # A caption may do without a letter; a name on a sheet may not.
    unread = next((line.number for line in lines if NO_LETTER in line.text), None)
    if unread:
        raise Unfit(f"{_called(file)} can't be read (line {unread} isn't UTF-8)")
    return [line.text for line in lines]


def _opened(file: str) -> ContextManager[BinaryIO]:
    if file == STANDARD_INPUT:
        return contextlib.nullcontext(sys.stdin.buffer)
    return open(file, 'rb')


def _pieces(stream: BinaryIO, file: str) -> Iterator[bytes]:
    """The bytes that come, piece by piece. Raises `Unfit` if they are too many."""
    left = files.MOST_BYTES
    while True:
        piece = stream.read(PIECE)
        if not piece:
            return
        left -= len(piece)
        if left < 0:
            raise Unfit(f'{_called(file)} has more than {files.MOST_BYTES:,} bytes')
        yield piece


def _lines(pieces: Iterable[bytes]) -> Iterator[Line]:
    """The lines in some pieces that say something; pieces of line ends alone take no time."""
    number, begun = 1, [b'']
    for piece in pieces:
        if not any(begun) and not piece.strip():
            number += piece.count(b'\n')
            continue
        first, *others = piece.split(b'\n')
        begun.append(first)
        for text in others:
            yield from _line(number, b''.join(begun))
            number, begun = number + 1, [text]
    yield from _line(number, b''.join(begun))


def _line(number: int, content: bytes) -> Iterator[Line]:
    text = plain(content.decode('utf-8', 'replace'))
    if text:
        yield Line(number, text)


def _called(file: str) -> str:
    return 'standard input' if file == STANDARD_INPUT else printable(file)


def puzzle_of(programs: Programs, line: Line, game: Optional[str]) -> Puzzle:
    """The puzzle of a line, of this game where it fits both. Raises `Unfit`."""
    if line.save:
        return _of_save(programs, line.save, '')
    first, _, rest = line.text.partition(' ')
    named = game_called(first)
    if named:
        return _of_id(programs, [named], rest)
    if is_there(line.text):
        return _of_file(programs, line.text, '')
    if is_there(first):
        return _of_file(programs, first, rest)
    return _of_id(programs, list(GAMES), line.text, game)


def _of_id(programs: Programs, words: List[str], text: str, preferred: Optional[str] = None) -> Puzzle:
    """Of that of these games that takes the ID."""
    id, _, caption = text.partition(' ')
    refusals = {word: programs.ask(word, f'new {id}').refused for word in words}
    fitting = [word for word, refused in refusals.items() if refused is None]
    if not fitting:
        # The descriptions of Towers alone have strokes in them.
        meant = words[0] if len(words) == 1 else 'towers' if '/' in id else 'unequal'
        raise Unfit(texts.of_id(str(refusals[meant]), meant))
    if len(fitting) == 1:
        preferred = fitting[0]
    if preferred is None:
        raise Unfit(f'it fits both games: write {" or ".join(fitting)} before it')
    return proved(programs, preferred, caption)


def _of_file(programs: Programs, file: str, caption: str) -> Puzzle:
    found = files.read(file)
    if found.kind is not files.Kind.READ:
        raise Unfit(f'{printable(file)} {found.why or "is no longer there"}')
    return _of_save(programs, found.content, caption)


def _of_save(programs: Programs, content: bytes, caption: str) -> Puzzle:
    """The puzzle of a saved game of either kind, at its start."""
    refusals: List[str] = []
    for game in GAMES:
        try:
            program = started_with(programs.path, game, content)
        except Refused as refused:
            refusals.append(str(refused))
            continue
        program.stop()
        if program.first.session is None:
            raise Gone("it doesn't give the game of a save")
        programs.ask(game, f'new {program.first.session.id}')
        return proved(programs, game, caption)
    other = next((name for name in refusals if name != 'WrongGame'), 'WrongGame')
    raise Unfit((texts.of_foreign(content) if other == 'WrongGame' else '') or texts.of_save(other, 'towers'))
