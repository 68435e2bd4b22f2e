"""The steps of a hint: each holds where it stands by the second implementation, no number can be left out, and their sentences say what they have."""

from typing import Any, Dict, Iterator, Sequence

from tests.objects.names import end_of_contradiction, expect_known, hint_name, step_name
from tests.objects.reading import Object
from tests.objects.sentences import emptied, expect_text
from tests.second_implementation.grades import KINDS, leads_on, letters_of
from tests.second_implementation.puzzles import Numbers, Puzzle
from tests.second_implementation.steps import Left, Reason, Step, after, held, in_view, is_shown, shown_with
from tests.second_implementation.towers import TowersPuzzle, edge_place

#: The members of a step that say something of its kind.
OF_CLUE, OF_SQUARE, OF_LINE = {'x', 'y', 'clue'}, {'cells'}, {'line', 'cells', 'numbers'}
MEMBERS = {
    'given': OF_SQUARE, 'peer': OF_SQUARE, 'place': OF_LINE, 'bound': OF_CLUE, 'stand': OF_CLUE, 'clue': OF_CLUE, 'sign': {'greater', 'less'}, 'set': OF_LINE,
}


def expect_steps(puzzle: Puzzle, numbers: Numbers, hint: Object) -> None:
    """The account that a hint of the line `hint` gives of its steps is true."""
    assert (hint['from'], hint['unmarked']) == ('numbers', None)
    expect_steps_from(puzzle, numbers, in_view(puzzle.size, numbers), hint)


def expect_steps_from(puzzle: Puzzle, numbers: Numbers, view: Left, hint: Object) -> None:
    """The account that a hint gives of its steps from some numbers in view is true."""
    expect_grade(puzzle, numbers, view, hint)
    assert hint['view'] == [sorted(left) for left in view]
    assert hint['name'] == hint_name(hint)
    if hint['kind'] == 'nothing':
        assert (hint['by'], hint['line'], hint['steps'], hint['text']) == (None, None, [], [])
        return
    if hint['kind'] == 'contradiction':
        assert hint['by'] is None and (hint['cell'], hint['line'], hint['number']) == end_of_contradiction(puzzle.size, hint)
    else:
        assert hint['by'] == ('value' if hint['line'] is None else 'line')
    for step in hint['steps']:
        expect_members(puzzle, hint['grade'], step)
    chain = [step_of(puzzle, step) for step in hint['steps']]
    expect_held(puzzle, view, chain, hint['steps'])
    expect_needed(puzzle, view, hint, chain)
    expect_text(puzzle, numbers, view, hint, chain)


def expect_grade(puzzle: Puzzle, numbers: Numbers, view: Left, hint: Object) -> None:
    """It is the least that leads on. Where all steps leave a square nothing, that is a contradiction, and the grade is the least whose steps do."""
    letters = letters_of(puzzle)
    found = {letter: leads_on(puzzle, numbers, tuple(view), grade) for letter, grade in letters.items()}
    refuting = [letter for letter, leads in found.items() if leads is None]
    leading = [letter for letter, leads in found.items() if leads]
    kind = 'contradiction' if refuting else 'follows' if leading else 'nothing'
    assert (hint['kind'], hint['grade']) == (kind, next(iter(refuting or leading), None)), numbers


def expect_members(puzzle: Puzzle, letter: str, step: Object) -> None:
    """The kind is one of the grade, the members of others are null, lists rise, a sign strikes at one end, and the clue is the one at its place."""
    kind, strikes = step['reason'], step['strikes']
    assert KINDS[kind] <= letters_of(puzzle)[letter]
    bounds = {'least', 'most'} if kind == 'sign' else set()
    assert {key for key, value in step.items() if value is not None} - bounds == MEMBERS[kind] | {'known', 'name', 'reason', 'split', 'strikes', 'text'}
    assert step['name'] == step_name(puzzle.size, step)
    lists = [step['cells'], step['numbers'], *(strike['numbers'] for strike in strikes), [strike['cell'] for strike in strikes]]
    assert all(rises(values or []) for values in lists) and all(strike['numbers'] for strike in strikes)
    assert strikes and (kind != 'sign' or len(strikes) == 1)
    assert step['clue'] is None or isinstance(puzzle, TowersPuzzle) and puzzle.clues[edge_place(puzzle.size, step['x'], step['y'])] == step['clue']


def rises(values: Sequence[int]) -> bool:
    return all(value < following for value, following in zip(values, values[1:]))


def step_of(puzzle: Puzzle, told: Object) -> Step:
    """A step as it is told."""
    where: Dict[str, Any] = {}
    if told['clue'] is not None:
        where['place'] = edge_place(puzzle.size, told['x'], told['y'])
    if told['greater'] is not None:
        where['sign'] = (told['greater'], told['less'])
    if told['line'] is not None:
        where.update(line=told['line'], numbers=frozenset(told['numbers']))
    strikes = {strike['cell']: frozenset(strike['numbers']) for strike in told['strikes']}
    return Step(Reason(told['reason'], cells=tuple(told['cells'] or ()), **where), strikes)


# ---- each step where it stands


def expect_held(puzzle: Puzzle, view: Left, chain: Sequence[Step], told: Sequence[Object]) -> None:
    """All that a step strikes is left before it, and follows by its reason from what is left there. A clue tells what its line would show. A fact that could be told
    with the step before is told with it."""
    left = view
    for at, (step, one) in enumerate(zip(chain, told)):
        for cell, numbers in step.strikes.items():
            assert numbers <= held(puzzle, left, step.reason, cell), f'step {at + 1}: {sorted(numbers)} at {cell}, where {sorted(left[cell])} are left'
        expect_shows(puzzle, left, step, one)
        expect_known(left, one)
        assert at + 1 == len(chain) or not is_told_with(puzzle, left, step, chain[at + 1]), f'step {at + 2} is told alone'
        left = [numbers - step.strikes.get(cell, frozenset()) for cell, numbers in enumerate(left)]


def expect_shows(puzzle: Puzzle, left: Left, step: Step, told: Object) -> None:
    """For each number all counts of towers that its line could have with it there; never the clue."""
    for strike in told['strikes']:
        if told['clue'] is None:
            assert strike['shows'] is None
            continue
        shown = [sorted(shown_with(puzzle.size, left, step.reason, strike['cell'], number)) for number in strike['numbers']]
        assert strike['shows'] == shown
        assert not any(told['clue'] in counts for counts in shown)


def is_told_with(puzzle: Puzzle, left: Left, step: Step, following: Step) -> bool:
    """Whether the first square of the following step could be told with a step: for the same reason, behind its squares, by what is left before it. A sign has
    one square at its end."""
    cell, numbers = next(iter(following.strikes.items()))
    return following.reason == step.reason and step.reason.kind != 'sign' and cell > max(step.strikes) and numbers <= held(puzzle, left, step.reason, cell)


# ---- all of them together


def expect_needed(puzzle: Puzzle, view: Left, hint: Object, chain: Sequence[Step]) -> None:
    """The steps lead to the number, or leave the square nothing, and without any one of their numbers they do not."""

    def leads(steps: Sequence[Step]) -> bool:
        left = after(puzzle, view, steps)
        if left is None:
            return False
        if hint['kind'] == 'contradiction':
            return not left[emptied(puzzle.size, hint)]
        return is_shown(puzzle, left, hint['cell'], hint['number'], hint['line'])

    assert leads(chain)
    for at, step in enumerate(chain):
        for less in with_one_less(step):
            assert not leads([*chain[:at], less, *chain[at + 1:]]), f'step {at + 1} needs no more than {less.strikes}'


def with_one_less(step: Step) -> Iterator[Step]:
    """The step without any one of its numbers."""
    for cell, numbers in step.strikes.items():
        for number in numbers:
            yield step._replace(strikes={**step.strikes, cell: numbers - {number}})
