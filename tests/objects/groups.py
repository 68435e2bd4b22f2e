"""Neighbouring steps that are one sentence (docs/HINTS.md): signs of one direction, or clues alone from which fewer or more would be seen, that strike the
same number."""

from typing import Iterator, List, NamedTuple, Optional, Sequence

from tests.objects.clue_sentences import SIDES, all_seen, numbers_in_words
from tests.objects.ends import Told, weakest
from tests.objects.words import capital, joined, squares
from tests.second_implementation.puzzles import Puzzle
from tests.second_implementation.steps import Left, Step, each, held, seen_squares
from tests.second_implementation.towers import TowersPuzzle


class Common(NamedTuple):
    """The common part of the steps of one sentence: `greater` or `less` of signs, `fewer` or `more` of clues; and the number that is struck."""

    word: str
    number: int


def grouped(puzzle: Puzzle, chain: Sequence[Step]) -> Iterator[List[Step]]:
    """The steps of each sentence."""
    group: List[Step] = []
    for step in chain:
        if group and (common_of(puzzle, step) is None or common_of(puzzle, step) != common_of(puzzle, group[0])):
            yield group
            group = []
        group.append(step)
    if group:
        yield group


def sentence_of_group(puzzle: Puzzle, group: Sequence[Told]) -> str:
    """That of the step, if it is one; or the one of all, which hold at once."""
    common = common_of(puzzle, group[0].step)
    if len(group) == 1 or common is None:
        return group[0].sentence
    first = group[0].left
    for told in group:
        expect_held_at_once(puzzle, first, told.step, common)
    cells = [cell for told in group for cell in told.step.strikes]
    assert len(set(cells)) == len(cells)
    if isinstance(puzzle, TowersPuzzle):
        clues = joined([clue_name(puzzle, told.step.reason.place) for told in group], 'and')
        return f"Clues {clues}: with {numbers_in_words([common.number])} in {squares(puzzle.size, cells, 'or')} {common.word} towers would be seen."
    end = weakest(group)
    most = f' that is {end.words} {end.number}' if end else ''
    return f'{capital(squares(puzzle.size, cells))} are each {common.word} than a neighbour{most}: they are not {common.number}.'


def common_of(puzzle: Puzzle, step: Step) -> Optional[Common]:
    """Nothing, if more than one number is struck, or a clue sees fewer towers with it in one square and more in another."""
    numbers = frozenset().union(*step.strikes.values())
    if len(numbers) != 1:
        return None
    number, kind = min(numbers), step.reason.kind
    if kind == 'sign':
        return Common('greater' if step.reason.sign[0] in step.strikes else 'less', number)
    if kind != 'bound' or not isinstance(puzzle, TowersPuzzle):
        return None
    line = {cell: each(puzzle.size) for cell in seen_squares(puzzle.size, step.reason.place)}
    words = {seen.word for seen in all_seen(puzzle.clues[step.reason.place], line, step).values()}
    return Common(words.pop(), number) if words in ({'fewer'}, {'more'}) else None


def expect_held_at_once(puzzle: Puzzle, first: Left, step: Step, common: Common) -> None:
    """The sentence is true before the first of its steps: each follows then, and so it is of the neighbour."""
    for cell, numbers in step.strikes.items():
        assert numbers <= held(puzzle, first, step.reason, cell)
    if step.reason.kind == 'sign':
        greater, less = step.reason.sign
        assert min(first[less]) >= common.number if common.word == 'greater' else max(first[greater]) <= common.number


def clue_name(puzzle: TowersPuzzle, place: int) -> str:
    side, at = divmod(place, puzzle.size)
    return f'{puzzle.clues[place]} {SIDES[side]} {at + 1}'
