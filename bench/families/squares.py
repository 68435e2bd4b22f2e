"""Latin squares as lists of numbers in reading order."""

from __future__ import annotations

from math import gcd
from random import Random
from typing import Dict, List, Sequence, Set

from tests.second_implementation.puzzles import Numbers


def random_square(random: Random, size: int) -> Numbers:
    """A square that is filled row by row: each row matches columns with numbers that they don't have yet."""
    used: List[Set[int]] = [set() for _ in range(size)]
    numbers: List[int] = []
    for _ in range(size):
        row = random_row(random, size, used)
        for column, number in enumerate(row):
            used[column].add(number)
        numbers += row
    return tuple(numbers)


def random_row(random: Random, size: int, used: Sequence[Set[int]]) -> List[int]:
    """The numbers from 1 to the size, each in a column that hasn't used it. There always is such a row."""
    columns: Dict[int, int] = {}
    choices = [random.sample(sorted(set(range(1, size + 1)) - used[column]), size - len(used[column])) for column in range(size)]
    for column in random.sample(range(size), size):
        place(column, choices, columns, set())
    row = {column: number for number, column in columns.items()}
    return [row[column] for column in range(size)]


def place(column: int, choices: Sequence[Sequence[int]], columns: Dict[int, int], tried: Set[int]) -> bool:
    """Gives the column a number, where another column may have to take another one. `columns` has the column of each number so far."""
    for number in choices[column]:
        if number not in tried:
            tried.add(number)
            if number not in columns or place(columns[number], choices, columns, tried):
                columns[number] = column
                return True
    return False


def cyclic_square(random: Random, size: int) -> Numbers:
    """A square whose rows are each other's shifts."""
    steps = [step for step in range(1, size) if gcd(step, size) == 1]
    across, down, shift = random.choice(steps), random.choice(steps), random.randrange(size)
    return tuple((across * x + down * y + shift) % size + 1 for y in range(size) for x in range(size))


def some_of(random: Random, numbers: Sequence[int], share: float) -> Numbers:
    """Each number with this probability, or 0."""
    return tuple(number if random.random() < share else 0 for number in numbers)


def a_few(random: Random, numbers: Sequence[int], most: int) -> Numbers:
    """At most so many of the numbers, and 0 elsewhere."""
    kept = random.sample(range(len(numbers)), random.randint(0, most))
    return tuple(number if cell in kept else 0 for cell, number in enumerate(numbers))
