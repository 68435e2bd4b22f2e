"""Objects from what a run wrote."""

import json
import re
from typing import Any, Dict, List, NamedTuple, Sequence, Tuple

from tests.harness import Room, run
from tests.objects.schema import LOST, unfit, wrong_object
from tests.second_implementation.desk import begun
from tests.second_implementation.fair_lines import fair_words, plain_lines

Object = Dict[str, Any]

#: A text within an object.
TEXT = re.compile(r'"(?:[^"\\]|\\.)*"')

#: A line that may be as long as this is read; one with more bytes is refused.
MOST_BYTES = 1024

#: The line that begins a fair game; the plain program knows only the game that it begins.
FAIR = b'fair'

#: The lines that the plain program doesn't know.
OWN_LINES = (b'board', b'completable', b'hint', b'hint marks', b'grade', b'solutions', b'spare')

#: Those of a setter that begin a game.
DESK_LINES = (b'blank', b'item', b'thin', b'fill')

ALL_OWN = (*OWN_LINES, FAIR, *DESK_LINES)


class Unread(Exception):
    """The output is not an object for each line. The text says why."""


def read_object(line: bytes) -> Object:
    """The object of a line: compact, in UTF-8, with its keys in order and each once."""
    try:
        text = line.decode('utf-8')
        found = json.loads(text, object_pairs_hook=in_order)
    except ValueError as error:
        raise Unread(f'{line[:80]!r} is no object: {error}') from None
    if not isinstance(found, dict):
        raise Unread(f'{line[:80]!r} is no object')
    if re.search(r'\s', TEXT.sub('', text)):
        raise Unread(f'{line[:80]!r} has blanks')
    return found


def in_order(pairs: List[Tuple[str, object]]) -> Object:
    keys = [key for key, _ in pairs]
    if keys != sorted(set(keys)):
        raise ValueError(f'the keys are {keys}')
    return dict(pairs)


def read_objects(output: bytes) -> List[Object]:
    """The objects of whole lines."""
    if output and not output.endswith(b'\n'):
        raise Unread(f'the last line, {output[-80:]!r}, has no end')
    return [read_object(line) for line in output.split(b'\n')[:-1]]


class Answered(NamedTuple):
    """A line and the object that answers it."""

    line: bytes
    found: Object

    @property
    def is_lost(self) -> bool:
        return 'lost' in self.found

    @property
    def is_own(self) -> bool:
        """Whether the plain program has no line for it."""
        return is_own(self.line) or is_fair(self.line) and self.found['refused'] is not None

    @property
    def reply(self) -> bytes:
        """The bytes of the plain program's reply."""
        return b''.join(text.encode('latin-1') + b'\n' for text in self.found['reply'])


def lines_with_reply(script: bytes) -> List[bytes]:
    """The lines of an input that are answered, each as it is read."""
    lines: List[bytes] = []
    for line in script.split(b'\n'):
        if len(line) <= MOST_BYTES and line.endswith(b'\r'):
            line = line[:-1]
        if line == b'quit':
            break
        if line:
            lines.append(line)
    return lines


def without_own(lines: Sequence[bytes]) -> List[bytes]:
    """The lines without those that the plain program doesn't know."""
    return [line for line in lines if not is_own(line.rstrip(b'\r'))]


def is_own(line: bytes) -> bool:
    """Whether the plain program has no line for it: one that is answered from the session, or a setter's."""
    return line in OWN_LINES or re.fullmatch(rb'spare [^ ]+', line) is not None or begun(line) is not None


def is_fair(line: bytes) -> bool:
    """Whether a line, without one CR at its end, asks for a fair game."""
    return len(line) <= MOST_BYTES and fair_words(line) is not None


def as_plain(game: str, lines: Sequence[bytes]) -> List[bytes]:
    """The same, with the line `new` in place of each that begins a fair game."""
    plain: List[bytes] = []
    for line in without_own(lines):
        read = line[:-1] if line.endswith(b'\r') else line
        plain += plain_lines(game, read) if is_fair(read) else [line]
    return plain


def read_answers(script: bytes, output: bytes, may_lose: bool = False) -> List[Answered]:
    """The objects of a run with their lines. Raises `Unread` where one is not as it has to be."""
    lines, objects = lines_with_reply(script), read_objects(output)
    if len(objects) != len(lines):
        raise Unread(f'{len(objects)} objects answer {len(lines)} lines')
    answers = [Answered(line, found) for line, found in zip(lines, objects)]
    for answer in answers:
        is_lost = may_lose and answer.is_lost
        for what in unfit('it', answer.found, LOST) if is_lost else wrong_object(answer.found, answer.line):
            raise Unread(f'{shortened(answer.line)}: {what}')
    return answers


def shortened(line: bytes) -> str:
    return repr(line if len(line) <= 60 else line[:57] + b'..')


def told(program: str, room: Room, game: str, lines: Sequence[str]) -> List[Object]:
    """The objects that answer lines of a run that ends well."""
    script = ''.join(f'{line}\n' for line in lines).encode('latin-1')
    ended = run([program, game], room, input=script)
    assert (ended.status, ended.error) == (0, b'')
    return [answer.found for answer in read_answers(script, ended.output)]
