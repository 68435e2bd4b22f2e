"""Fair games (docs/RULES.md, section 10)."""

from __future__ import annotations

from typing import Iterator, List, Optional, Sequence, Tuple

from tests.second_implementation.grades import HARD, LATIN, LETTERS, follows
from tests.second_implementation.puzzles import Numbers, Puzzle, is_latin
from tests.second_implementation.seeded import full_puzzle, square, without_item
from tests.second_implementation.stream import shuffled, words_of_key
from tests.second_implementation.words import Refused

DRAWS = 512


def offered(game: str, size: int, letter: str) -> int:
    """The grade of a letter."""
    grade = LETTERS[game].get(letter)
    if grade is None or (grade == HARD and size == 3):
        raise Refused('NotOffered')
    return grade


def fair(game: str, size: int, letter: str, seed: int) -> Puzzle:
    """The puzzle of the first draw that doesn't follow by the grade below."""
    grade = offered(game, size, letter)
    words = words_of_key(seed.to_bytes(8, 'big') + bytes([size, ord(letter), ord(game[0].upper())]) + bytes(21))
    for _ in range(DRAWS):
        puzzle = drawn_puzzle(game, size, grade, words)
        if grade == LATIN or not follows(puzzle, grade - 1):
            return puzzle
    raise Refused('NoneFound')


def drawn_puzzle(game: str, size: int, grade: int, words: Iterator[int]) -> Puzzle:
    """A draw: a square and an order, and what is left of the square's full puzzle when the items were tried in that order."""
    puzzle, items = full_puzzle(game, size, drawn_rows(size, words))
    for item in order_of_trial(game, grade, items - size * size, size * size, words):
        less = without_item(puzzle, item)
        if follows(less, grade):
            puzzle = less
    return puzzle


def order_of_trial(game: str, grade: int, marks: int, cells: int, words: Iterator[int]) -> List[int]:
    """The items, of which the givens are the last, in the order in which they are tried."""
    givens = [marks + cell for cell in shuffled(words, cells)]
    others = shuffled(words, marks)
    if game == 'unequal':
        return others[:marks // 2] + givens + others[marks // 2:]
    return givens + others if grade == HARD else givens


def drawn_rows(size: int, words: Iterator[int]) -> Numbers:
    """A Latin square, row by row."""
    rows: List[Sequence[int]] = []
    for _ in range(size):
        columns = shuffled(words, size)
        numbers = [number + 1 for number in shuffled(words, size)]
        chosen = first_that_fits(rows, columns, numbers, ())
        if chosen is not None:
            rows.append([number for _, number in sorted(zip(columns, chosen))])
    drawn = tuple(number for row in rows for number in row)
    return drawn if len(rows) == size and is_latin(size, drawn) else square(size, 0)


def first_that_fits(rows: Sequence[Sequence[int]], columns: Sequence[int], numbers: Sequence[int], chosen: Tuple[int, ...]) -> Optional[Tuple[int, ...]]:
    """Numbers for the columns in turn, from those that are chosen on."""
    if len(chosen) == len(columns):
        return chosen
    column = columns[len(chosen)]
    for number in numbers:
        if number not in chosen and all(row[column] != number for row in rows):
            found = first_that_fits(rows, columns, numbers, (*chosen, number))
            if found is not None:
                return found
    return None
