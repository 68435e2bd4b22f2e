"""The sentences of a hint: each says what its step has, by what is left before it (docs/HINTS.md)."""

import re
import textwrap
from typing import FrozenSet, List, Optional, Sequence

from tests.objects.clue_sentences import clue_sentence
from tests.objects.ends import End, Told, end_of, said_after
from tests.objects.groups import grouped, sentence_of_group
from tests.objects.reading import Object
from tests.objects.words import capital, joined, line_name, losses, square, squares
from tests.second_implementation.puzzles import Numbers, Puzzle, cells_of
from tests.second_implementation.steps import Left, Step, after, each, in_view
from tests.second_implementation.towers import TowersPuzzle

#: How many characters a line of text has at most.
WIDTH = 100

#: In how many squares the steps of a hint strike at most, if its sentences name squares that a clue needs.
NAMED_AMONG = 60


def expect_text(puzzle: Puzzle, numbers: Numbers, view: Left, hint: Object, chain: Sequence[Step]) -> None:
    before = left = said = view
    names_squares = sum(len(step.strikes) for step in chain) <= NAMED_AMONG
    groups: List[List[Told]] = []
    for steps in grouped(puzzle, chain):
        group: List[Told] = []
        for step in steps:
            end = end_of(puzzle.size, said, step)
            group.append(Told(step, left, end, sentence_of(puzzle, left, step, end, names_squares)))
            before = left
            left = after(puzzle, left, [step]) or left
        said = said_after(puzzle.size, said, group)
        groups.append(group)
    assert [told['text'] for told in hint['steps']] == [cut(told.sentence) for group in groups for told in group]
    assert hint['groups'] == [len(group) for group in groups]
    whole = [line for at, group in enumerate(groups) for line in cut(f'{at + 1}. {sentence_of_group(puzzle, group)}')]
    end_line = contradiction(puzzle.size, numbers, view, before, chain[-1:], hint) if hint['kind'] == 'contradiction' else conclusion(puzzle, numbers, view, hint)
    assert hint['text'] == [*whole, *cut(end_line)]


def emptied(size: int, hint: Object) -> int:
    """The square that the steps to a contradiction leave nothing: the last sentence names it, or a number without a square left, for which the last step took it."""
    if any(line.startswith('So ') and ' has no square left for ' in line for line in hint['text']):
        return int(hint['steps'][-1]['cells'][0])
    found = [re.match(r'So r(\d)c(\d) has no number left: ', line) for line in hint['text']]
    (row, column), = [match.groups() for match in found if match]
    return (int(row) - 1) * size + int(column) - 1


def cut(sentence: str) -> List[str]:
    return textwrap.wrap(sentence, WIDTH, subsequent_indent='   ')


# ---- a step


def sentence_of(puzzle: Puzzle, left: Left, step: Step, end: Optional[End], names_squares: bool) -> str:
    size, reason = puzzle.size, step.reason
    if isinstance(puzzle, TowersPuzzle) and reason.kind in ('bound', 'stand', 'clue'):
        return clue_sentence(puzzle, left, step, names_squares)
    if reason.kind == 'place' and min(reason.numbers) not in left[reason.cells[0]] == step.strikes[reason.cells[0]]:
        return f'No other square of {line_name(size, reason.line)} can be {min(reason.numbers)}, nor can {squares(size, reason.cells)}.'
    return f'{capital(why_of(size, left, step, end))}: {losses(size, step.strikes)}.'


def why_of(size: int, left: Left, step: Step, end: Optional[End]) -> str:
    reason = step.reason
    if reason.kind == 'sign':
        return sign_why(size, step, end)
    at = squares(size, reason.cells)
    if reason.kind == 'set' and len(reason.cells) > 1:
        return set_why(size, left, step)
    if reason.kind == 'place':
        number, line = min(reason.numbers), line_name(size, reason.line)
        return f'in {line} only {at} can be {number}' if number in left[reason.cells[0]] else f'no other square of {line} can be {number}'
    return f'{at} is given' if reason.kind == 'given' else f'{at} is {min(reason.numbers or left[reason.cells[0]])}'


def set_why(size: int, left: Left, step: Step) -> str:
    """Squares that take some numbers among them; or, where those are fewer, the others of the line, as the only ones for the numbers that are over."""
    reason = step.reason
    line = cells_of(size, reason.line)
    open_cells = [cell for cell in line if len(left[cell]) != 1]
    alone = {number for cell in line if len(left[cell]) == 1 for number in left[cell]}
    rest = [cell for cell in open_cells if cell not in reason.cells]
    over = each(size) - reason.numbers - alone
    are_alone = all(over.isdisjoint(left[cell]) for cell in line if cell not in rest)
    struck = all(cell in rest and over.isdisjoint(numbers) for cell, numbers in step.strikes.items())
    taken = sum(1 for cell in reason.cells if len(left[cell]) > 1)
    if len(rest) == len(over) < taken and are_alone and struck:
        return f"in {line_name(size, reason.line)} only {squares(size, rest)} can be {joined(sorted(over), 'or')}"
    return f"in {line_name(size, reason.line)} {squares(size, reason.cells)} take {joined(sorted(reason.numbers), 'and')} among them"


def sign_why(size: int, step: Step, end: Optional[End]) -> str:
    greater, less = step.reason.sign
    to = next(iter(step.strikes))
    said = f"{square(size, to)} is {'greater' if to == greater else 'less'} than {square(size, less if to == greater else greater)}"
    if end is None:
        return said
    return f"{said}, which is {'' if end.is_alone else end.words + ' '}{end.number}"


# ---- what they show


def conclusion(puzzle: Puzzle, numbers: Numbers, view: Left, hint: Object) -> str:
    size, cell, number, line = puzzle.size, hint['cell'], hint['number'], hint['line']
    if line is not None:
        return f'So {square(size, cell)} is {number}: no other square of {line_name(size, line)} can be {number}.'
    for of_cell in (cell // size, size + cell % size):
        if each(size) - {numbers[other] for other in cells_of(size, of_cell)} == {number}:
            return f'So {square(size, cell)} is {number}: it is the last free square of {line_name(size, of_cell)}.'
    return f'So {square(size, cell)} is {number}: {where_gone(size, numbers, cell, view[cell], view[cell] - {number})}.'


def contradiction(size: int, numbers: Numbers, view: Left, before: Left, last: Sequence[Step], hint: Object) -> str:
    """The end of the steps to a contradiction: a number that has no square in a line, if the last one leaves it none, or a square without numbers."""
    for reason in (step.reason for step in last):
        if reason.kind == 'place' and reason.numbers.isdisjoint(before[reason.cells[0]]):
            return f'So {line_name(size, reason.line)} has no square left for {min(reason.numbers)}.'
    return empty_conclusion(size, numbers, view, emptied(size, hint))


def empty_conclusion(size: int, numbers: Numbers, view: Left, cell: int) -> str:
    """The end of the steps to a contradiction, of a filled square or of an empty one."""
    why = f'its {numbers[cell]} is ruled out above' if numbers[cell] else where_gone(size, numbers, cell, view[cell], view[cell])
    return f'So {square(size, cell)} has no number left: {why}.'


def where_gone(size: int, numbers: Numbers, cell: int, view: FrozenSet[int], struck: FrozenSet[int]) -> str:
    """Which numbers stand in the lines of an empty square with these in view, which of those were struck, and which aren't marked."""
    bare = in_view(size, numbers)[cell]
    parts = [
        (each(size) - bare, 'stands in its row or column', 'stand in its row or column'),
        (struck, 'is ruled out above', 'are ruled out above'),
        (bare - view, "isn't among its marks", "aren't among its marks"),
    ]
    told = [f"{joined(sorted(gone), 'and')} {one if len(gone) == 1 else several}" for gone, one, several in parts if gone]
    return ', '.join([*told[:-1], f"{'and ' if len(told) > 1 else ''}{told[-1]}"])
