"""Which puzzles come onto a sheet: no two with one solution, turned over or not, as long as there are others."""

from __future__ import annotations

import itertools
from typing import Dict, Iterator, List, Mapping, NamedTuple, Optional, Protocol, Sequence, Set, Tuple

from sheet import seeds
from sheet.likeness import Form, form
from sheet.lists import Line, puzzle_of
from sheet.puzzles import Programs, Puzzle, Unfit
from sheet.seeds import Kind, sentence

#: A sheet has no more puzzles, and of a list no more lines are told that are wrong.
MOST = 200

#: And all sheets of a class.
MOST_OF_CLASS = 1000

#: After so many puzzles of a kind in a row whose solution is on the sheet the first of them that isn't there itself is taken.
ALIKE = 60

#: The sentence if there aren't so many different puzzles.
LIKE = '{alike} of the {count} puzzles {have} the solution of an earlier one, perhaps turned over: {tries} in a row had no new one'
REPEATED = '{repeated} of the {count} puzzles {stand} on an earlier sheet, too: {tries} in a row were there already'
FEWER = 'there {are} {count} {puzzles}, not {wanted}: {tries} in a row were there already'
TOO_MANY = '{pupils} names with {count} puzzles each are {all} puzzles: a class has {most} at most.'


class Progress(Protocol):
    """Called with the number of puzzles that there are, as one more is there."""

    #: How many there are to be, where that is known.
    count: Optional[int]

    def __call__(self, number: int) -> None:
        ...


class Choice(NamedTuple):
    #: Those of each pupil; or all of them.
    sheets: List[List[Puzzle]]
    #: The sentences on those that share a solution, or are lacking.
    told: List[str]

    @property
    def puzzles(self) -> List[Puzzle]:
        return [puzzle for sheet in self.sheets for puzzle in sheet]


class WrongLines(Exception):
    """Nothing is printed of a list with such lines. `told` says why, line by line."""

    def __init__(self, told: List[str]) -> None:
        super().__init__()
        self.told = told


class Seeded:
    """Puzzles of seeds, as they come onto a sheet."""

    def __init__(self, left: Mapping[Kind, Iterator[Puzzle]]) -> None:
        self.puzzles: List[Puzzle] = []
        #: How many have the solution of an earlier one.
        self.alike = 0
        #: How many stand on an earlier sheet.
        self.repeated = 0
        #: Of each kind. Each has each seed once: they are not the same games.
        self._left = left
        self._forms: Set[Form] = set()
        #: Sizes of which there is no new solution, and kinds of which there is no new puzzle.
        self._spent: Set[int] = set()
        self._exhausted: Set[Kind] = set()

    def add(self, kind: Kind) -> Optional[Puzzle]:
        """The next puzzle with a new solution; after many without one the first that is new at all, or none. Raises `Unfit`."""
        spare: Optional[Puzzle] = None
        if kind in self._exhausted:
            return None
        for puzzle in itertools.islice(self._left[kind], ALIKE):
            if form(puzzle.answer) not in self._forms:
                self._forms.add(form(puzzle.answer))
                self.puzzles.append(puzzle)
                return puzzle
            if spare is None and all(puzzle.id != other.id for other in self.puzzles):
                spare = puzzle
            if spare and kind.size in self._spent:
                break
        self._spent.add(kind.size)
        if spare is None:
            self._exhausted.add(kind)
        else:
            self.puzzles.append(spare)
            self.alike += 1
        return spare

    def again(self, kind: Kind, sheet: Sequence[Puzzle]) -> Optional[Puzzle]:
        """Another pupil's puzzle where there is none of a kind any more: one that isn't on this sheet, each in turn."""
        own = {puzzle.id for puzzle in sheet}
        others = [puzzle for puzzle in self.puzzles if (puzzle.size, puzzle.board.session.letter) == kind[1:] and puzzle.id not in own]
        if not others:
            return None
        self.repeated += 1
        return others[(self.repeated - 1) % len(others)]


def of_seeds(programs: Programs, numbers: Tuple[int, int], wanted: Sequence[Kind], pupils: int, progress: Progress) -> Choice:
    """One of each kind, in this order, for each pupil: no two pupils have the same puzzle as long as there are others. Raises `Unfit` where there are too
    many pupils, none of a kind are made, or none is found."""
    if len(wanted) * pupils > MOST_OF_CLASS:
        raise Unfit(TOO_MANY.format(pupils=pupils, count=len(wanted), all=len(wanted) * pupils, most=MOST_OF_CLASS))
    seeds.check(programs, wanted)
    found = Seeded({kind: seeds.puzzles(programs, kind, *numbers) for kind in wanted})
    sheets: List[List[Puzzle]] = []
    for _ in range(pupils):
        sheets.append([])
        for kind in wanted:
            puzzle = found.add(kind) or found.again(kind, sheets[-1])
            if puzzle:
                sheets[-1].append(puzzle)
            progress(sum(map(len, sheets)))
    counts = {'alike': found.alike, 'repeated': found.repeated, 'count': sum(map(len, sheets)), 'wanted': len(wanted) * pupils, 'tries': ALIKE}
    told = [(LIKE, found.alike), (REPEATED, found.repeated), (FEWER, counts['count'] if counts['count'] < counts['wanted'] else 0)]
    return Choice(sheets, [sentence(text, number, **counts) for text, number in told if number])


class Entry(NamedTuple):
    """A puzzle of a list."""

    line: int
    puzzle: Puzzle
    #: The first line with this solution.
    like: int


def of_list(programs: Programs, lines: Iterator[Line], game: Optional[str], count: Optional[int], progress: Progress) -> Choice:
    """So many puzzles of a list, or all. Raises `Unfit` where those are too many, and `WrongLines`. No more lines are read than are needed."""
    if count is None:
        every = list(itertools.islice(lines, MOST + 1))
        if len(every) > MOST:
            raise Unfit(f'There are more than {MOST} puzzles, and a sheet has {MOST} at most: --count {MOST} takes the first ones.')
        lines, count = iter(every), len(every)
        progress.count = count
    new: List[Entry] = []
    alike: List[Entry] = []
    first: Dict[Form, int] = {}
    wrong: List[str] = []
    for line, puzzle in _readable(programs, lines, game, wrong):
        like = first.setdefault(form(puzzle.answer), line.number)
        if like == line.number or len(alike) < count:
            (new if like == line.number else alike).append(Entry(line.number, puzzle, like))
        progress(len(new))
        if len(new) == count:
            break
    if wrong:
        raise WrongLines(wrong)
    # Those that are alike fill up what is lacking.
    kept = alike[: count - len(new)]
    told = [f'line {entry.line}: it has the solution of line {entry.like}, perhaps turned over' for entry in kept]
    return Choice([[entry.puzzle for entry in sorted(new + kept, key=lambda entry: entry.line)]], told)


def _readable(programs: Programs, lines: Iterator[Line], game: Optional[str], wrong: List[str]) -> Iterator[Tuple[Line, Puzzle]]:
    """The lines with their puzzles, and what there is to say of the others."""
    for line in lines:
        try:
            puzzle = puzzle_of(programs, line, game)
        except Unfit as unfit:
            wrong.append(f'line {line.number}: {unfit}')
            if len(wrong) == MOST:
                return
            continue
        yield line, puzzle
