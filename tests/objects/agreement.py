"""One run of each program over the same lines: the replies are the plain bytes, and what else is told agrees with them."""

from itertools import chain, islice
from typing import Any, Dict, List, NamedTuple, Optional, Sequence, Tuple

import pytest

from tests.conftest import Programs
from tests.harness import Ended, Room, run
from tests.objects.boards import Texts, board_of, numbers_of, puzzle_of
from tests.objects.marked import expect_marks_hint
from tests.objects.reading import Answered, as_plain, lines_with_reply, read_answers, shortened
from tests.objects.solutions import expect_completable, expect_hint, expect_solutions
from tests.objects.steps import expect_steps
from tests.second_implementation.desk import spare
from tests.second_implementation.grades import grade_of

#: The views that are asked for after each line, and those of the board after some.
SESSION = [b'status', b'id']
BOARD = [b'show', b'marks', b'done', b'board']


class Script(NamedTuple):
    """A game, what it begins with, and the lines for puzzles-json."""

    game: str
    words: List[str]
    #: The file that is loaded, or nothing.
    save: bytes
    #: A line, the views that say what its session is, and perhaps those of its board.
    groups: List[List[bytes]]
    ending: List[bytes]

    @property
    def input(self) -> bytes:
        return b'\n'.join([*chain.from_iterable(self.groups), *self.ending])


class Pair(NamedTuple):
    """Both programs."""

    objects: str
    plain: str

    def run(self, words: Sequence[str], input: bytes, save: bytes = b'') -> Tuple['Left', 'Left']:
        """Runs each in a room of its own, the plain one without the lines that it doesn't know, and with `new` for `fair`."""
        kept = b'\n'.join(as_plain(words[0], input.split(b'\n')))
        return left(self.objects, words, input, save), left(self.plain, words, kept, save)


class Left(NamedTuple):
    """How a run ended, and what the file `new.sav` is then."""

    ended: Ended
    saved: object


def left(program: str, words: Sequence[str], input: bytes, save: bytes) -> Left:
    with Room() as room:
        if save:
            room.put('old.sav', save)
        ended = run([program, *words], room, input=input)
        return Left(ended, room.read('new.sav'))


def expect_agreement(pair: Pair, one: Script) -> None:
    found, plain = pair.run(one.words, one.input, one.save)
    # Where the save is refused no line is read.
    has_begun = plain.ended.status == 0
    answers = read_answers(one.input if has_begun else b'', found.ended.output)
    expect_alike(found, plain, answers)
    # Behind each line stand the views that say what its session is, and then its board.
    told = iter(answers)
    for lines in one.groups if has_begun else []:
        expect_group(one.game.title(), list(islice(told, len(lines_with_reply(b'\n'.join(lines))))))


def expect_alike(found: Left, plain: Left, answers: Sequence[Answered]) -> None:
    """A run is the plain one, told otherwise."""
    assert b''.join(answer.reply for answer in answers if not answer.is_own) == plain.ended.output
    assert found.ended._replace(output=b'') == plain.ended._replace(output=b'')
    assert found.saved == plain.saved


def expect_group(game: str, group: Sequence[Answered]) -> None:
    told = {answer.line: answer for answer in group}
    wanted = session_of(game, told[b'status'], told[b'id'])
    for answer in group:
        assert answer.found['session'] == wanted, shortened(answer.line)
    if wanted is None or not all(view in told for view in BOARD):
        return
    show, marks, done = (told[view].reply.decode('latin-1').split('\n')[:-1] for view in BOARD[:3])
    assert told[b'board'].found['board'] == board_of(game, Texts(wanted['id'], wanted['status'], show, marks, done))
    puzzle, numbers = puzzle_of(game, wanted['id']), numbers_of(game, show)
    for answer in group:
        if answer.line == b'completable':
            expect_completable(puzzle, numbers, answer.found['completable'])
        if answer.line == b'hint':
            expect_hint(puzzle, numbers, answer.found['hint'])
            expect_steps(puzzle, numbers, answer.found['hint'])
        if answer.line == b'hint marks':
            expect_marks_hint(puzzle, numbers, told[b'board'].found['board']['marks'], answer.found['hint'])
        if answer.line == b'solutions':
            expect_solutions(puzzle, numbers, answer.found['solutions'])
        if answer.line.startswith(b'spare') and answer.found['refused'] is None:
            assert answer.found['spare'] == spare(game.lower(), puzzle, answer.line[6:])
        if answer.line == b'grade':
            assert answer.found['grade'] == grade_of(puzzle)


def session_of(game: str, status: Answered, id: Answered) -> Optional[Dict[str, Any]]:
    """The session that the plain program's texts say."""
    if status.reply.startswith(b'refused: '):
        return None
    word, counts = status.reply.decode().split()
    position, states = map(int, counts.split('/'))
    named = id.reply.decode('latin-1').rstrip('\n')
    return {'game': game, 'id': named, 'position': position, 'states': states, 'status': word}


@pytest.fixture
def pair(programs: Programs) -> Pair:
    return Pair(programs.objects, programs.puzzles)
