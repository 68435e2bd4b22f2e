"""Memory is refused to the calls of crates/trial_runs, one call a run.

The output of a run begins with the answer and with how the session is after it.
"""

from typing import Iterator, List, NamedTuple, Tuple

from tests.harness import FaultLibrary, Room, run


class Answer(NamedTuple):
    status: int
    output: bytes
    calls: int

    @property
    def lines(self) -> List[bytes]:
        """The answer, and how the session is after it."""
        return (self.output.splitlines() + [b'', b''])[:2]


class Calls:
    """The program of the calls, run under faults."""

    def __init__(self, room: Room, program: str, library: FaultLibrary) -> None:
        self.room = room
        self.program = program
        self.library = library
        # A full history takes long to make, with the same requests for each call of its game: only the last few of them are
        # refused again.
        self.full_game, self.full_first = '', 1

    def listed(self) -> List[List[str]]:
        """Each call: a game and a call of it."""
        return list(map(str.split, run([self.program, 'calls'], self.room).output.decode().splitlines()))

    def refuse(self, game: str, call: str) -> None:
        """The Nth request is refused, and then all from the Nth on, until the call is over."""
        ample = self.answer(game, call, 0, False)
        assert ample.status == 0, f'{game} {call}, with ample memory'
        is_full = call.startswith('full-')
        first = self.full_first if is_full and game == self.full_game else 1
        refusals = 0
        for is_on in (False, True):
            for at, found in self.answers(game, call, first, is_on):
                if found.lines[0] == b'fixture':
                    first = at + 1
                    continue
                refusals += found.lines[0] == b'OutOfMemory'
                assert wrong_answer(found, ample) == [], f'{game} {call}, request {at} refused {"on" if is_on else "once"}'
        if is_full:
            self.full_game, self.full_first = game, max(first - 4, 1)
        if is_full or call.startswith('wrong-'):
            assert not refusals, f'{game} {call}'
        else:
            assert refusals, f'{game} {call}'

    def answers(self, game: str, call: str, first: int, is_on: bool) -> Iterator[Tuple[int, Answer]]:
        """The answers, as long as there is such a request and the call is not yet over."""
        at = first
        while True:
            found = self.answer(game, call, at, is_on)
            if found.calls < at or found.lines[0] == b'afterwards':
                return
            yield at, found
            at += 1

    def answer(self, game: str, call: str, at: int, is_on: bool) -> Answer:
        env = self.library.env('memory', at, on=is_on)
        ended = run([self.program, 'call', game, call], self.room, env=env)
        return Answer(ended.status, ended.output, self.library.met().calls)


def wrong_answer(found: Answer, ample: Answer) -> List[str]:
    """The mistakes of an answer: it has to be OutOfMemory, in an unchanged session, or that with ample memory."""
    wrong = []
    if found.lines[0] != b'OutOfMemory':
        if found.output != ample.output:
            wrong.append('the answer is another')
    elif found.lines[1] != b'same':
        wrong.append('the session has changed')
    if found.status != 0:
        wrong.append(f'the status is {found.status}')
    return wrong
