"""A board as it has to be told: from the plain program's texts, and from the puzzle of its ID as tests/second_implementation reads it."""

from typing import Dict, List, NamedTuple, Sequence, Set

from tests.objects.reading import Object
from tests.second_implementation.games import GAMES
from tests.second_implementation.puzzles import Numbers, Puzzle
from tests.second_implementation.towers import TowersPuzzle, edge_line, edge_xy, in_fillings
from tests.second_implementation.unequal import UnequalPuzzle


class Texts(NamedTuple):
    """The plain program's answers on one state."""

    id: str
    #: `playing`, `solved` or `helped`.
    status: str
    show: Sequence[str]
    marks: Sequence[str]
    done: Sequence[str]


def puzzle_of(game: str, id: str) -> Puzzle:
    """The puzzle of an ID as the program writes it."""
    parameters, _, description = id.encode('latin-1').partition(b':')
    rules = GAMES[game.lower()]
    return rules.read_description(rules.read_parameters(parameters).size, description)


def numbers_of(game: str, show: Sequence[str]) -> Numbers:
    """The numbers of a picture."""
    rows = [line.split()[1:-1] for line in show[1:-1]] if game == 'Towers' else [list(line[::2]) for line in show[::2]]
    return tuple(0 if found == '.' else int(found) for row in rows for found in row)


def board_of(game: str, texts: Texts) -> Object:
    """The whole object."""
    puzzle = puzzle_of(game, texts.id)
    numbers = numbers_of(game, texts.show)
    return {
        # Only a solution sets the help flag, and sets the other one with it.
        'cheated': texts.status == 'helped',
        'clues': clues_of(puzzle, numbers, texts.done),
        'completed': texts.status != 'playing',
        'errors': repeated(puzzle.size, numbers),
        'givens': list(puzzle.givens),
        'marks': marks_of(puzzle.size, texts.marks),
        'numbers': list(numbers),
        'signs': signs_of(puzzle, numbers),
        'size': puzzle.size,
    }


def marks_of(size: int, lines: Sequence[str]) -> List[List[int]]:
    """The pencil marks of each square, from lines as `2,1:3`."""
    told: Dict[int, List[int]] = {}
    for line in lines:
        if line != 'no marks':
            square, _, digits = line.partition(':')
            x, y = map(int, square.split(','))
            told[y * size + x] = [int(digit) for digit in digits]
    return [told.get(cell, []) for cell in range(size * size)]


def repeated(size: int, numbers: Numbers) -> List[int]:
    """The cells whose number stands again in their row or column."""
    met: Set[int] = set()
    for first, number in enumerate(numbers):
        for second in range(first):
            in_line = first // size == second // size or first % size == second % size
            if in_line and number and number == numbers[second]:
                met.update((first, second))
    return sorted(met)


def clues_of(puzzle: Puzzle, numbers: Numbers, done: Sequence[str]) -> List[Object]:
    """The clues of Towers, in description order."""
    if not isinstance(puzzle, TowersPuzzle):
        return []
    size = puzzle.size
    told: List[Object] = []
    for place, clue in enumerate(puzzle.clues):
        x, y = edge_xy(size, place)
        if clue:
            may = tuple(frozenset([found] if found else range(1, size + 1)) for found in edge_line(size, numbers, place))
            has_error = not any(in_fillings(clue, may))
            told.append({'clue': clue, 'done': f'{x},{y}' in done, 'error': has_error, 'x': x, 'y': y})
    return told


def signs_of(puzzle: Puzzle, numbers: Numbers) -> List[Object]:
    """The signs of Unequal, by their first square: the one to the right before the one below."""
    if not isinstance(puzzle, UnequalPuzzle):
        return []
    each = range(1, puzzle.size + 1)
    told: List[Object] = []
    for greater, less in sorted(puzzle.signs, key=lambda sign: (min(sign), max(sign))):
        pairs = [(high, low) for high in each for low in each if high > low]
        can_be = any(numbers[greater] in (0, high) and numbers[less] in (0, low) for high, low in pairs)
        told.append({'error': not can_be, 'greater': greater, 'less': less})
    return told
