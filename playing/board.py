"""The program's account of a game: the objects of puzzles-json as values with names."""

from __future__ import annotations

from itertools import islice
from typing import Any, Dict, FrozenSet, List, Mapping, NamedTuple, Optional, Tuple

from playing.naming import Place
from playing.steps import Sentence, Step, sentences, steps_of

#: The games, by the words of the command line.
GAMES = {'towers': 'Towers', 'unequal': 'Unequal'}


class Session(NamedTuple):
    """The game that a line left."""

    #: A word of the command line.
    game: str
    id: str
    #: Which state is shown, counted from 1, and how many there are.
    position: int
    states: int
    #: `playing`, `solved` or `helped`. It stays so where a solved board is changed.
    status: str

    @property
    def letter(self) -> str:
        """The letter of difficulty; nothing where the ID has none."""
        params = self.id.partition(':')[0]
        return params[2:3] if params[1:2] == 'd' else ''


class Clue(NamedTuple):
    number: int
    is_done: bool
    is_wrong: bool


class Sign(NamedTuple):
    greater: Place
    less: Place
    is_wrong: bool


class Board(NamedTuple):
    """The board that is shown. `wrong` has the squares whose number is twice in a line; clues and signs tell it of themselves."""

    session: Session
    size: int
    numbers: Mapping[Place, int]
    givens: FrozenSet[Place]
    marks: Mapping[Place, List[int]]
    clues: Mapping[Place, Clue]
    signs: List[Sign]
    wrong: FrozenSet[Place]
    #: All of it as the program tells it, for a front end that draws from that.
    told: Mapping[str, Any] = {}

    @property
    def squares(self) -> List[Place]:
        """In reading order."""
        return [(x, y) for y in range(self.size) for x in range(self.size)]

    def row(self, y: int) -> List[Place]:
        return [(x, y) for x in range(self.size)]

    def column(self, x: int) -> List[Place]:
        return [(x, y) for y in range(self.size)]

    def marks_more_than(self, other: Board) -> int:
        """How many pencil marks are here that aren't on another board of this puzzle."""
        return sum(len(set(marks) - set(other.marks.get(place, []))) for place, marks in self.marks.items())

    def shows_as(self, other: Board) -> bool:
        """Whether numbers, pencil marks and done marks are those of another board of this puzzle."""
        return (self.numbers, self.marks, self.clues_done) == (other.numbers, other.marks, other.clues_done)

    @property
    def clues_done(self) -> FrozenSet[Place]:
        """The clues that are marked as done."""
        return frozenset(place for place, clue in self.clues.items() if clue.is_done)

    @property
    def is_full(self) -> bool:
        return len(self.numbers) == self.size * self.size

    @property
    def has_fault(self) -> bool:
        """Whether there is something to be painted red."""
        return bool(self.wrong) or any(clue.is_wrong for clue in self.clues.values()) or any(sign.is_wrong for sign in self.signs)

    @property
    def is_solved(self) -> bool:
        """A full board without red is a solution: the program promises it."""
        return self.is_full and not self.has_fault

    @property
    def own(self) -> Tuple[int, int]:
        """How many squares the player has filled, and how many there are to fill."""
        return len(self.numbers) - len(self.givens), self.size * self.size - len(self.givens)


class Hint(NamedTuple):
    """The next step: a number in a square (`follows`), nothing (`nothing`), or that the numbers are wrong (`contradiction`)."""

    kind: str
    #: The square, counted in reading order from 0, and the number; of numbers that are wrong the square that has none left, or the number that has none in `line`.
    cell: Optional[int]
    number: Optional[int]
    #: The letter of the least grade that has the steps; nothing where no steps lead there.
    grade: Optional[str] = None
    #: The row or column in which the number has no other square, if that shows it.
    line: Optional[int] = None
    #: The steps as objects, and all of it in sentences, each cut into lines.
    told: List[Mapping[str, Any]] = []
    text: List[str] = []
    #: The numbers in view of each square before the first step, in reading order: its number, or those that don't stand in its row or column.
    view: List[List[int]] = []
    #: How many steps each sentence is of, but for the last.
    groups: List[int] = []
    #: From what the steps begin, `marks` or `numbers`; and where these marks can't be right, a square whose number isn't among them.
    origin: str = 'numbers'
    unmarked: Optional[int] = None
    #: The name of its last sentence; nothing where an older program gives none.
    name: str = ''

    @property
    def sentences(self) -> List[Sentence]:
        """All of it, each by the name of its steps; those of one sentence mostly have the same."""
        steps = iter(self.told)
        return sentences(self.text, [*('; '.join(dict.fromkeys(step.get('name', '') for step in islice(steps, length))) for length in self.groups), self.name])

    def steps(self, size: int) -> List[Step]:
        """The steps, on a board of this size."""
        return steps_of(self.told, size)

    def square(self, size: int) -> Optional[Place]:
        """The one where a number follows, on a board of this size."""
        return self.goal(size) if self.kind == 'follows' else None

    def goal(self, size: int) -> Optional[Place]:
        """The one where a number follows, or that has none left."""
        return None if self.cell is None else (self.cell % size, self.cell // size)

    @property
    def has_wrong_marks(self) -> bool:
        """Whether the numbers may be right, and the marks are not."""
        return self.kind == 'contradiction' and self.origin == 'marks'

    def in_view(self, board: Board) -> Dict[Place, List[int]]:
        """The numbers in view of each empty square."""
        return {place: list(numbers) for place, numbers in zip(board.squares, self.view) if place not in board.numbers}


class Reply(NamedTuple):
    """One object of the program."""

    #: The name of the refusal, where the line was refused.
    refused: Optional[str]
    lines: List[str]
    session: Optional[Session]
    board: Optional[Board] = None
    completable: Optional[str] = None
    hint: Optional[Hint] = None
    #: The letter of the puzzle's grade.
    grade: Optional[str] = None
    #: Two solutions at most, as numbers in reading order; and items of the puzzle, as the program lists them.
    solutions: Optional[List[List[int]]] = None
    spare: Optional[Mapping[str, Any]] = None
    #: The line was carried out or refused, and memory for the reply was lacking.
    is_lost: bool = False


def reply_of(data: Mapping[str, Any]) -> Reply:
    """The reply that an object is. Other members are passed over."""
    if 'lost' in data:
        return Reply(str(data['lost']), [], None, is_lost=True)
    session = session_of(data['session']) if data['session'] else None
    board = board_of(data['board'], session) if session and data.get('board') else None
    hint = hint_of(data['hint']) if data.get('hint') else None
    return Reply(data['refused'], list(data['reply']), session, board, data.get('completable'), hint, data.get('grade'), data.get('solutions'), data.get('spare'))


def hint_of(data: Mapping[str, Any]) -> Hint:
    """A hint; a program that tells no steps has none."""
    told = data.get('steps', [])
    groups = data.get('groups', [1] * len(told))
    hint = Hint(data['kind'], data['cell'], data['number'], data.get('grade'), data.get('line'), told, data.get('text', []), data.get('view', []), groups)
    return hint._replace(origin=data.get('from', 'numbers'), unmarked=data.get('unmarked'), name=data.get('name') or '')


def session_of(data: Mapping[str, Any]) -> Session:
    return Session(data['game'].lower(), data['id'], data['position'], data['states'], data['status'])


def board_of(data: Mapping[str, Any], session: Session) -> Board:
    size: int = data['size']

    def place(cell: int) -> Place:
        return cell % size, cell // size

    def filled(numbers: List[int]) -> Dict[Place, int]:
        return {place(cell): number for cell, number in enumerate(numbers) if number}

    return Board(
        session=session,
        size=size,
        numbers=filled(data['numbers']),
        givens=frozenset(filled(data['givens'])),
        marks={place(cell): marks for cell, marks in enumerate(data['marks']) if marks},
        clues={(clue['x'], clue['y']): Clue(clue['clue'], clue['done'], clue['error']) for clue in data['clues']},
        signs=[Sign(place(sign['greater']), place(sign['less']), sign['error']) for sign in data['signs']],
        wrong=frozenset(map(place, data['errors'])),
        told=data,
    )
