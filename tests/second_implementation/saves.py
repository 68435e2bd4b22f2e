"""Save files: records, loading and saving (docs/FORMATS.md, section 6)."""

import re
from dataclasses import dataclass, field
from typing import Dict, List, Optional, Tuple

from tests.second_implementation.games import Game, Parameters
from tests.second_implementation.moves import RESTART, Board, Move, first_board, played, read_move
from tests.second_implementation.puzzles import Puzzle
from tests.second_implementation.words import Refused, number

COLLECTION = b"Simon Tatham's Portable Puzzle Collection"
MOST_BYTES = 16_777_216
MOST_STATES = 100_000

#: The keys that may stand once, whatever their values.
SINGLE = {'VERSION', 'GAME', 'PARAMS', 'CPARAMS', 'SEED', 'DESC', 'AUXINFO', 'UI', 'TIME', 'NSTATES', 'STATEPOS'}
NEEDED = ['VERSION', 'GAME', 'PARAMS', 'CPARAMS', 'DESC']
KEPT = ['SEED', 'AUXINFO', 'UI', 'TIME']
COUNTS = ['NSTATES', 'STATEPOS']
STATES = {'MOVE', 'SOLVE', 'RESTART'}

LINE_ENDS = re.compile(rb'[\r\n]*\Z')
RECORD_HEAD = re.compile(rb'[\r\n]*([^:\r\n][^:]{7}):([0-9]{1,8}):')


@dataclass(frozen=True)
class Record:
    name: str
    value: bytes
    #: Where the text goes on after the value.
    end: int


def next_record(text: bytes, start: int) -> Optional[Record]:
    """The first record from a place on, or nothing where only line ends are left."""
    head = RECORD_HEAD.match(text, start)
    if not head:
        if LINE_ENDS.match(text, start):
            return None
        raise Refused('Malformed')
    end = head.end() + int(head.group(2))
    if end > len(text):
        raise Refused('Malformed')
    return Record(head.group(1).rstrip(b' ').decode('latin-1'), text[head.end():end], end)


@dataclass
class Met:
    """The content of the records so far."""

    values: Dict[str, bytes] = field(default_factory=dict)
    states: List[Tuple[str, bytes]] = field(default_factory=list)

    def count(self, name: str) -> Optional[int]:
        value = self.values.get(name)
        return None if value is None else number(value, 1, MOST_STATES)

    def has_counts(self) -> bool:
        return all(name in self.values for name in COUNTS)

    def is_complete(self) -> bool:
        states = self.count('NSTATES')
        return self.has_counts() and states is not None and len(self.states) == states - 1

    def take(self, game: Game, record: Record) -> None:
        """Takes one more record, or refuses it."""
        if record.name == 'SAVEFILE' or record.name in self.values:
            raise Refused('Repeated')
        if record.name in STATES:
            self.take_state(record)
        elif record.name == 'PRIVDESC':
            raise Refused('Unsupported')
        elif record.name in SINGLE:
            self.values[record.name] = record.value
            self.check_value(game, record)

    def take_state(self, record: Record) -> None:
        if not self.has_counts():
            raise Refused('EarlyState')
        if record.name != 'RESTART' and record.value[:1] in (b'H', b'F'):
            raise Refused('Unsupported')
        self.states.append((record.name, record.value))

    def check_value(self, game: Game, record: Record) -> None:
        if record.name == 'VERSION' and record.value != b'1':
            raise Refused('Version')
        if record.name == 'GAME' and record.value != game.name.encode():
            raise Refused('WrongGame')
        if record.name in ('PARAMS', 'CPARAMS'):
            game.read_parameters(record.value)
        if record.name in COUNTS:
            states, position = self.count('NSTATES'), self.count('STATEPOS')
            if self.count(record.name) is None or (states and position and position > states):
                raise Refused('BadCount')


@dataclass(frozen=True)
class Session:
    game: Game
    puzzle: Puzzle
    params: Parameters
    next_params: Parameters
    kept: Dict[str, bytes]
    moves: Tuple[Move, ...]
    #: The board of each state, the first included.
    boards: Tuple[Board, ...]
    position: int

    def status(self) -> str:
        return f'{self.boards[self.position - 1].status()} {self.position}/{len(self.boards)}'

    def game_id(self) -> str:
        return f'{self.params.text()}:{self.puzzle.description()}'


def load(game: Game, text: bytes) -> Session:
    """The session of a save, or the first refusal."""
    if len(text) > MOST_BYTES:
        raise Refused('TooLarge')
    return session_of(game, records_met(game, text, head_end(text)))


def head_end(text: bytes) -> int:
    """Where the record that names the format ends."""
    try:
        head = next_record(text, 0)
    except Refused:
        head = None
    if head is None or head.name != 'SAVEFILE' or head.value != COLLECTION:
        raise Refused('NotASave')
    return head.end


def records_met(game: Game, text: bytes, start: int) -> Met:
    """Takes records in turn, until both counts and all states are there."""
    met = Met()
    while not met.is_complete():
        record = next_record(text, start)
        if record is None:
            raise Refused('Missing')
        met.take(game, record)
        start = record.end
    return met


def session_of(game: Game, met: Met) -> Session:
    """The session that the records say."""
    if any(name not in met.values for name in NEEDED):
        raise Refused('Missing')
    params = game.read_parameters(met.values['CPARAMS'])
    puzzle = game.read_description(params.size, met.values['DESC'])
    moves: List[Move] = []
    boards = [first_board(puzzle)]
    for index, (name, value) in enumerate(met.states, 1):
        try:
            move = state_move(game, puzzle, name, value, is_first=index == 1)
            boards.append(played(puzzle, boards[-1], move))
        except Refused:
            raise Refused('BadState', index) from None
        moves.append(move)
    kept = {name: met.values[name] for name in KEPT if name in met.values}
    next_params = game.read_parameters(met.values['PARAMS'])
    return Session(game, puzzle, params, next_params, kept, tuple(moves), tuple(boards), met.count('STATEPOS') or 1)


def state_move(game: Game, puzzle: Puzzle, name: str, value: bytes, is_first: bool) -> Move:
    """The move of a state record."""
    if name == 'RESTART':
        if is_first or game.read_description(puzzle.size, value) != puzzle:
            raise Refused('BadState')
        return RESTART
    move = read_move(value)
    if name == 'SOLVE' and move.letter != 'S':
        raise Refused('BadState')
    return move


def save(session: Session) -> bytes:
    """The save of a session."""
    values: Dict[str, bytes] = {
        'SAVEFILE': COLLECTION,
        'VERSION': b'1',
        'GAME': session.game.name.encode(),
        'PARAMS': session.next_params.text().encode(),
        'CPARAMS': session.params.text().encode(),
        'DESC': session.puzzle.description().encode(),
        'NSTATES': b'%d' % len(session.boards),
        'STATEPOS': b'%d' % session.position,
        **session.kept,
    }
    order = ['SAVEFILE', 'VERSION', 'GAME', 'PARAMS', 'CPARAMS', 'SEED', 'DESC', 'AUXINFO', 'UI', 'TIME', 'NSTATES', 'STATEPOS']
    text = b''.join(written(name, values[name]) for name in order if name in values)
    return text + b''.join(written(*state_record(session.puzzle, move)) for move in session.moves)


def state_record(puzzle: Puzzle, move: Move) -> Tuple[str, bytes]:
    if move.letter == '':
        return 'RESTART', puzzle.description().encode()
    return ('SOLVE' if move.letter == 'S' else 'MOVE'), move.text.encode()


def written(name: str, value: bytes) -> bytes:
    return b'%-8s:%d:%s\n' % (name.encode(), len(value), value)
