"""Certificates: why a puzzle has so many solutions, step by step, from the hints of the program. docs/CERTIFICATES.md has their form."""

from __future__ import annotations

import json
import time
from typing import Any, Callable, Iterable, List, Mapping, Optional, Sequence, Tuple

from check.learning import Search, Step
from check.narrowing import Grid
from check.words import Limits
from playing.program import Program, Stopped

#: The words of certificates for the number of solutions: none, one, or two of them.
ANSWERS = ['none', 'one', 'several']


class TooMuch(Exception):
    """There is no certificate within the limits."""


class Walk:
    """The numbers that are left on a board, and the steps that have left them."""

    def __init__(self, grid: Grid, givens: Sequence[int]) -> None:
        self._grid = grid
        self.left = [{given} if given else set(range(1, grid.size + 1)) for given in givens]
        self.steps: List[Step] = []
        #: How long they are.
        self.bytes = 0
        for square, given in enumerate(givens):
            if given:
                self.settle(square, given)

    @property
    def is_over(self) -> bool:
        """Whether some square has no number left."""
        return not all(self.left)

    def _strike(self, kind: str, what: Any, strikes: Iterable[Tuple[int, Iterable[int]]]) -> None:
        """A step, unless all that it strikes is gone."""
        found = [(square, self.left[square].intersection(numbers)) for square, numbers in strikes]
        step = [kind, what, [[square, sorted(numbers)] for square, numbers in found if numbers]]
        for square, numbers in found:
            self.left[square] -= numbers
        if step[-1]:
            self.steps.append(step)
            self.bytes += len(str(step))

    def settle(self, square: int, number: int, by_line: Optional[int] = None) -> None:
        """The number of a square, by a line: others go from it, and it from the others of its lines."""
        row, column = self._grid.lines_of(square)
        self._strike('line', row if by_line is None else by_line, [(square, self.left[square] - {number})])
        for line in row, column:
            self._strike('line', line, [(other, [number]) for other in self._grid.lines[line] if other != square])

    def tell(self, step: Mapping[str, Any]) -> None:
        """A step of a hint, as those of a certificate."""
        strikes = [(strike['cell'], strike['numbers']) for strike in step['strikes']]
        if step['reason'] == 'sign':
            self._strike('sign', [step['greater'], step['less']], strikes)
        elif step['reason'] == 'peer':
            for line in self._grid.lines_of(step['cells'][0]):
                self._strike('line', line, [each for each in strikes if each[0] in self._grid.lines[line]])
        elif step['x'] is None:
            self._strike('line', step['line'], strikes)
        else:
            self._strike('clue', self._grid.place(step['x'], step['y']), strikes)


class Certifier:
    """Makes the certificates of one game's puzzles, by one run of the program."""

    def __init__(self, path: str, game: str, limits: Limits, beat: Callable[[str], None]) -> None:
        self._path, self._game, self._limits, self._beat = path, game, limits, beat
        self._program: Optional[Program] = None
        self._walk: Optional[Walk] = None
        self._deadline = 0.0
        #: How often numbers were supposed.
        self.suppositions = 0

    def stop(self) -> None:
        if self._program:
            self._program.stop()

    def certificate(self, id: str, has_needed: bool) -> str:
        """A line of JSON. Raises `TooMuch`, or `Gone`."""
        self._deadline, self._walk, self.suppositions = time.monotonic() + self._limits.seconds, None, 0
        self._ask(f'new {id}')
        board = self._ask('board')['board']
        solutions = self._ask('solutions')['solutions']
        steps = self._steps(board, solutions) if len(solutions) < 2 else []
        made = {'game': self._game, 'id': id, 'answer': ANSWERS[len(solutions)], 'solutions': solutions, 'steps': steps}
        needed = self._needed(id, board, solutions[0]) if has_needed and len(solutions) == 1 else None
        if needed:
            made['needed'] = needed
        text = json.dumps(made, separators=(',', ':'))
        if len(text) > self._limits.bytes:
            raise TooMuch
        return text

    def _ask(self, line: str) -> Mapping[str, Any]:
        self._check()
        try:
            if not self._program:
                self._program = Program(self._path, self._game, waiting=self._is_late)
            return self._program.object(line, self._is_late)
        except Stopped:
            self._program = None
            raise TooMuch from None

    @property
    def _bytes(self) -> int:
        return self._walk.bytes if self._walk else 0

    def _is_late(self) -> bool:
        self._beat(f'; certificate of {self._bytes // 1000:,} KB' if self._bytes > 1000 else '')
        return time.monotonic() > self._deadline

    def _check(self) -> None:
        if self._is_late() or self._bytes > self._limits.bytes:
            raise TooMuch

    def _steps(self, board: Mapping[str, Any], solutions: Sequence[Sequence[int]]) -> List[Step]:
        """By hints as far as they lead, and then by suppositions, too."""
        grid, open_squares = Grid(board), board['givens'].count(0)
        walk = self._walk = Walk(grid, board['givens'])
        while open_squares and not walk.is_over:
            hint = self._ask('hint')['hint']
            for step in hint['steps']:
                walk.tell(step)
            if hint['kind'] != 'follows':
                break
            square, number = hint['cell'], hint['number']
            walk.settle(square, number, hint['line'] if hint['by'] == 'line' else None)
            self._ask(f'move R{square % grid.size},{square // grid.size},{number}')
            open_squares -= 1
        if walk.is_over or not open_squares and solutions:
            return walk.steps
        search = Search(grid, walk.left, solutions[0] if solutions else None, self._check)
        search.run()
        steps, self.suppositions = search.steps()
        return walk.steps + steps

    def _needed(self, id: str, board: Mapping[str, Any], solution: Sequence[int]) -> Optional[List[List[int]]]:
        """For each clue, given and sign another solution without it; nothing if one of them has none."""
        w = board['size']
        items = [(clue['x'], clue['y']) for clue in board['clues']]
        items += [(square % w, square // w) for square, given in enumerate(board['givens']) if given]
        signs = sorted((sign['greater'], sign['less']) for sign in board['signs'])
        found: List[List[int]] = []
        for item in [*items, *((one % w, one // w, other % w, other // w) for one, other in signs)]:
            self._ask(f'new {id}')
            self._ask(f'item {",".join(map(str, item))},0')
            others = [grid for grid in self._ask('solutions')['solutions'] if grid != solution]
            if not others:
                return None
            found.append(others[0])
        return found
