"""The steps of a hint, as the program tells them, and where each of them looks."""

from __future__ import annotations

import re
from typing import Any, FrozenSet, List, Mapping, NamedTuple, Optional, Sequence

from playing.naming import Place, clue_name, line_name, listed, name


#: The words that begin a sentence of steps.
NUMBER = re.compile(r'\A[0-9]+\. ')


class Sentence(NamedTuple):
    """A sentence of a hint, with its number if it is of steps, and the name of these; nothing where the program gives none."""

    text: str
    number: str = ''
    name: str = ''

    @property
    def headed(self) -> str:
        """With its name."""
        return f'{self.name}. {self.text}' if self.name else self.text

    @property
    def whole(self) -> str:
        """With number and name."""
        return f'{self.number}{self.headed}'


class Strike(NamedTuple):
    """Numbers that a step rules out in a square."""

    place: Place
    numbers: List[int]


class Step(NamedTuple):
    """A step as the program tells it; a member that its kind lacks is nothing here."""

    reason: str
    #: The place of a clue, and the clue.
    clue: Optional[Place]
    number: Optional[int]
    #: The squares of a sign.
    greater: Optional[Place]
    less: Optional[Place]
    #: The row or column of a set, counted from 0, the rows first; its squares, and the numbers that they take.
    line: Optional[int]
    cells: List[Place]
    numbers: List[int]
    strikes: List[Strike]
    text: str
    #: The squares that its sentence names besides those above; an older program doesn't tell them.
    named: List[Place]

    def rests_on(self, size: int) -> FrozenSet[Place]:
        """The clue and the squares that it looks at."""
        places = {*self.cells, *filter(None, (self.greater, self.less, self.clue))}
        if self.clue:
            places.update(line_from(self.clue, size))
        return frozenset(places)

    def speaks_of(self, size: int) -> FrozenSet[Place]:
        """The clue and the squares that its sentence names; the whole line where that names none."""
        return frozenset([self.clue, *self.named]) if self.clue and self.named else self.rests_on(size)

    @property
    def struck(self) -> Mapping[Place, List[int]]:
        """The numbers that it rules out in each square."""
        return {strike.place: strike.numbers for strike in self.strikes}


def line_from(clue: Place, size: int) -> List[Place]:
    """The squares of a clue's row or column."""
    x, y = clue
    return [(x, at) for at in range(size)] if y in (-1, size) else [(at, y) for at in range(size)]


def line_squares(line: int, size: int) -> List[Place]:
    """The squares of a row or a column by its number."""
    return [(at, line) if line < size else (line - size, at) for at in range(size)]


def joined(lines: List[str]) -> str:
    """A sentence that was cut into lines."""
    return ' '.join(line.strip() for line in lines)


def sentences(lines: List[str], names: Sequence[str]) -> List[Sentence]:
    """The sentences of a text, of which those lines go on that begin with blanks, by their names."""
    found: List[str] = []
    for line in lines:
        if line.startswith(' ') and found:
            found[-1] = f'{found[-1]} {line.strip()}'
        else:
            found.append(line)
    numbers = [''.join(NUMBER.findall(whole)) for whole in found]
    return [Sentence(whole[len(number) :], number, name) for whole, number, name in zip(found, numbers, names)]


def steps_of(data: List[Mapping[str, Any]], size: int) -> List[Step]:
    """The steps of a hint on a board of a size."""

    def place(cell: Optional[int]) -> Optional[Place]:
        return None if cell is None else (cell % size, cell // size)

    def one(step: Mapping[str, Any]) -> Step:
        return Step(
            reason=step['reason'],
            clue=None if step['clue'] is None else (step['x'], step['y']),
            number=step['clue'],
            greater=place(step['greater']),
            less=place(step['less']),
            line=step['line'],
            cells=[(cell % size, cell // size) for cell in step['cells'] or []],
            numbers=step['numbers'] or [],
            strikes=[Strike((strike['cell'] % size, strike['cell'] // size), strike['numbers']) for strike in step['strikes']],
            text=joined(step['text']),
            named=[(told['cell'] % size, told['cell'] // size) for told in [*step.get('known', []), *step.get('split', [])]],
        )

    return [one(step) for step in data]


class Shown(NamedTuple):
    """The squares and clues to which the board points while a hint is told."""

    #: The numbers and clues on which a step rests.
    rests_on: FrozenSet[Place] = frozenset()
    #: The numbers that are left in each empty square before the step, and those of them that the step rules out; nothing where that isn't shown.
    left: Optional[Mapping[Place, List[int]]] = None
    struck: Mapping[Place, List[int]] = {}


def look_at(step: Step, size: int) -> str:
    """Where a step looks."""
    if step.clue and step.number:
        return f'Look at {clue_name(step.clue, step.number, size)}.'
    if step.greater and step.less:
        return f'Look at the sign between {name(step.greater)} and {name(step.less)}.'
    if step.line is not None:
        return f'Look at {line_name(step.line, size)}.'
    return f'Look at {listed(list(map(name, step.cells)))}.'
