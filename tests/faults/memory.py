"""Memory is refused, request by request. The answers are compared with those of runs in which nothing fails."""

import re
from pathlib import Path
from typing import Any, Dict, FrozenSet, List, NamedTuple, Sequence, Set, Tuple

from tests.faults.rounds import OLD_SAVE, Round, Rounds, State, Target
from tests.objects.reading import Unread, without_own

FOLDER = Path(__file__).resolve().parent / 'games'

#: Stands after each command: a command that is none. Its reply takes no memory, so it shows where the one before it ends.
MARK, MARK_REPLY = b'##\n', b'refused: BadCommand\n'

#: Commands that take no memory.
NEEDLESS = re.compile(rb'undo|redo|status|done|quit|move R9')

GAME_SAVE = (FOLDER / 'game.sav').read_bytes()


class Game(NamedTuple):
    """A game: its words, the name of a file with its commands, and the words of those that are answered with OutOfMemory in some round."""

    name: str
    words: List[str]
    script: str
    target: Target
    met: str

    @property
    def commands(self) -> List[bytes]:
        return (FOLDER / f'{self.script}.txt').read_bytes().splitlines()


OVER = Target(OLD_SAVE)
UNEQUAL = ['unequal', '--id', '3:0,0L,0L,0U,0,0,0U,0,0']
LOADED = ['towers', '--load', 'game.sav']
SEEDED = ['towers', '--id', '5!7']
GAMES = [
    Game('a game of Towers', ['towers'], 'towers', OVER, 'new move restart solve marks show id list save'),
    Game('a game of Unequal from its ID', UNEQUAL, 'unequal', OVER, 'new show solve marks id list save'),
    Game('a loaded game', LOADED, 'loaded', Target(), 'move restart save id'),
    Game('a game that is saved where it was loaded', ['towers', '--load', 'new.sav'], 'loaded', Target(GAME_SAVE), 'move restart save id'),
    Game('a seeded game', SEEDED, 'loaded', OVER, 'move save id'),
    Game('a game that is saved through a link', SEEDED, 'loaded', Target(OLD_SAVE, is_link=True), 'move save id'),
    Game('a game that is saved through a link to nothing', SEEDED, 'loaded', Target(is_link=True), 'move save id'),
]

#: The numbers of commands, counted from 0.
Numbers = FrozenSet[int]


class Refusing:
    """One game of the plain program, again and again. An answer is the bytes of a reply."""

    #: About so many rounds are made in which all memory is refused from a request on; as many as there are requests, where it is nothing.
    rounds_on = 0

    def __init__(self, rounds: Rounds, game: Game) -> None:
        self.rounds = rounds
        self.commands = without_own(game.commands)
        self.owed = game.met.split()
        #: The commands that were lost in some round, and the words of those and of what was refused.
        self.lost: Set[bytes] = set()
        self.met: Set[bytes] = set()
        self._references: Dict[Numbers, Tuple[List[Any], State]] = {}
        rounds.words = [*game.words, '--save', 'new.sav']
        rounds.target = game.target

    def typed(self, commands: Sequence[bytes]) -> bytes:
        return b''.join(command + b'\n' + MARK for command in commands)

    def read(self, output: bytes) -> List[Any]:
        """The answers. Raises `Unread` where these aren't answers to the commands."""
        *replies, rest = output.split(MARK_REPLY)
        if len(replies) != self.rounds.input.count(MARK) or rest:
            raise Unread(f'{len(replies)} commands are answered, and {rest!r} is left')
        return replies

    def is_refused(self, answer: Any) -> bool:
        return bool(answer == b'refused: OutOfMemory\n')

    def is_lost(self, answer: Any) -> bool:
        """Whether the command was carried out, and memory for its answer lacked."""
        return False

    def refuse(self) -> None:
        """The Nth request is refused, N from 1 until a round meets none; and then all from the Nth on."""
        self.rounds.input = self.typed(self.commands)
        ample = self.rounds.run('memory')
        assert ample.wrong_end(0, '') + ample.wrong_left() == []
        for is_on in (False, True):
            for at in range(1, ample.met.calls + 51, 1 + (ample.met.calls // self.rounds_on if is_on and self.rounds_on else 0)):
                found = self.rounds.run('memory', at, on=is_on)
                if found.met.calls < at:
                    break
                assert self.wrong(found, is_on) == [], f'request {at} refused {"on" if is_on else "once"}'
            assert (found.met.calls < at, found.status, found.output) == (True, 0, ample.output), 'a last round that meets none'
        assert [word for word in self.owed if word.encode() not in self.met] == []

    def wrong(self, found: Round, is_on: bool) -> List[str]:
        """The mistakes of a round."""
        if not found.output and found.status == 1:
            return ended_for_want(found)
        try:
            answers = self.read(found.output)
        except Unread as unread:
            return [str(unread)]
        lost = frozenset(at for at, answer in enumerate(answers) if self.is_lost(answer))
        refused = frozenset(at for at, answer in enumerate(answers) if self.is_refused(answer))
        self.lost.update(self.commands[at] for at in lost)
        self.met.update(self.commands[at].split()[0] for at in lost | refused)
        wrong = [f'{self.commands[at]!r} takes no memory' for at in refused if NEEDLESS.match(self.commands[at])]
        if not is_on and len(lost) + len(refused) + (found.status == 1) > 1:
            wrong.append(f'{lost} are lost and {refused} refused by one request, and the status is {found.status}')
        # Those whose answer is lost were carried out; where all memory is gone, they may have been refused.
        carried_out, saved = self.reference(refused)
        left_out = self.reference(refused | lost)[0] if is_on else carried_out
        for at, answer in enumerate(answers):
            if at not in lost | refused and answer not in (carried_out[at], left_out[at]):
                wrong.append(f'{self.commands[at]!r} is answered {answer}, which a run without what was refused does not')
        if found.status == 1:
            return wrong + ended_for_want(found)
        if not (is_on and lost) and found.after[1:] != saved[1:]:
            wrong.append('the save file is not that of a run without what was refused')
        return wrong + found.wrong_end(0, '') + found.wrong_left()

    def reference(self, gone: Numbers) -> Tuple[List[Any], State]:
        """The answers and the save file of a run without these commands, in which nothing fails; nothing is the answer to those."""
        if gone not in self._references:
            whole = self.rounds.input
            self.rounds.input = self.typed([command for at, command in enumerate(self.commands) if at not in gone])
            found = self.rounds.run()
            told = iter(self.read(found.output))
            self._references[gone] = [None if at in gone else next(told, None) for at in range(len(self.commands))], found.after
            self.rounds.input = whole
        return self._references[gone]


def ended_for_want(found: Round) -> List[str]:
    wrong = found.wrong_end(1, 'out of memory') + found.wrong_left()
    return wrong if found.stands else [*wrong, 'the save file has changed']
