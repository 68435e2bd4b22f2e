"""Changes of certificates: of what is claimed, of the puzzle, and of steps and lemmas. Some leave what is said as true as it was."""

import copy
import random
from typing import Any, Callable, Dict, List, Tuple

Certificate = Dict[str, Any]

#: The kinds of steps that strike, and of those that have steps below them.
LEAVES, BRANCHES = ['line', 'clue', 'number', 'sign', 'kept'], ['suppose', 'lemma']


def _branches(steps: List[Any]) -> List[List[Any]]:
    """All lists of steps, those below suppositions and lemmas too."""
    return [steps, *(each for step in steps if step[0] in BRANCHES for each in _branches(step[-1]))]


def _some(made: Certificate, chance: random.Random, kinds: List[str]) -> Tuple[List[Any], int]:
    """A list of steps and a place in it, where one of some kinds stands."""
    return chance.choice([(steps, place) for steps in _branches(made['steps']) for place, step in enumerate(steps) if step[0] in kinds])


def _step(made: Certificate, chance: random.Random, kinds: List[str]) -> Any:
    steps, place = _some(made, chance, kinds)
    return steps[place]


def _size(made: Certificate) -> int:
    return int(made['id'][0])


def _square(made: Certificate, chance: random.Random) -> int:
    return chance.randrange(_size(made) ** 2)


def _number(made: Certificate, chance: random.Random) -> int:
    return chance.randint(1, _size(made))


def _item(made: Certificate, chance: random.Random, change: Callable[[str], str]) -> None:
    """The puzzle with another clue of Towers, or another square of Unequal."""
    head, _, text = made['id'].partition(':')
    edge, comma, squares = text.partition(',') if made['game'] == 'towers' else (text, '', '')
    between = '/' if made['game'] == 'towers' else ','
    fields = edge.split(between)
    place = chance.randrange(len(fields))
    fields[place] = change(fields[place])
    made['id'] = f'{head}:{between.join(fields)}{comma}{squares}'


def item_less(made: Certificate, chance: random.Random) -> None:
    """The puzzle without a clue or a sign."""
    _item(made, chance, lambda field: field[:-1] if len(field) > (made['game'] == 'unequal') else field)


def item_more(made: Certificate, chance: random.Random) -> None:
    """The puzzle with another clue or given."""
    _item(made, chance, lambda field: f'{_number(made, chance)}{field[1:]}')


def other_number(made: Certificate, chance: random.Random) -> None:
    grid, square = chance.choice(made['solutions']), _square(made, chance)
    grid[square] = grid[square] % _size(made) + 1


def rows_swapped(made: Certificate, chance: random.Random) -> None:
    w, grid = _size(made), chance.choice(made['solutions'])
    one, other = chance.sample(range(w), 2)
    grid[one * w : one * w + w], grid[other * w : other * w + w] = grid[other * w : other * w + w], grid[one * w : one * w + w]


def steps_less(made: Certificate, chance: random.Random, count: int = 1 << 20) -> None:
    steps, place = _some(made, chance, LEAVES + BRANCHES)
    del steps[place : place + count]


def solution_struck(made: Certificate, chance: random.Random) -> None:
    """A step strikes the solution's number of a square, too."""
    square = _square(made, chance)
    _step(made, chance, LEAVES)[2].append([square, [made['solutions'][0][square]]])


def other_look(made: Certificate, chance: random.Random) -> None:
    step, w = _step(made, chance, LEAVES), _size(made)
    step[:2] = chance.choice([('line', chance.randrange(2 * w)), ('clue', chance.randrange(4 * w)), ('number', chance.randint(1, w))])


def other_supposed(made: Certificate, chance: random.Random) -> None:
    step = _step(made, chance, ['suppose'])
    step[2] = step[2] % _size(made) + 1


def solution_supposed(made: Certificate, chance: random.Random) -> None:
    step = _step(made, chance, ['suppose'])
    step[2] = made['solutions'][0][step[1]]


def branch_left(made: Certificate, chance: random.Random) -> None:
    """Steps that hold below a supposition or a lemma stand after it, too."""
    steps, place = _some(made, chance, BRANCHES)
    steps[place + 1 : place + 1] = copy.deepcopy(steps[place][-1])


def lemma_wider(made: Certificate, chance: random.Random) -> None:
    """A lemma has a number more, or a square less, than it is shown of."""
    numbers = _step(made, chance, ['lemma'])[1]
    if chance.random() < 0.5:
        chance.choice(numbers)[1].append(_number(made, chance))
    else:
        numbers.pop(chance.randrange(len(numbers)))


def lemma_later(made: Certificate, chance: random.Random) -> None:
    """A lemma is shown at the end, after its use."""
    steps, place = _some(made, chance, ['lemma'])
    steps.append(steps.pop(place))


def lemma_used(made: Certificate, chance: random.Random) -> None:
    """A lemma strikes some number of some square, first or anywhere."""
    steps = chance.choice(_branches(made['steps']))
    steps.insert(chance.randint(0, len(steps)), ['kept', 0, [[_square(made, chance), [_number(made, chance)]]]])


CHANGES: List[Callable[[Certificate, random.Random], object]] = [
    item_less, item_more, other_number, rows_swapped,
    lambda made, chance: steps_less(made, chance, 1),
    steps_less,
    # The last step comes first.
    lambda made, chance: made['steps'].insert(0, made['steps'].pop()),
    solution_struck,
    # A step strikes some number of some square, too.
    lambda made, chance: _step(made, chance, LEAVES)[2].append([_square(made, chance), [_number(made, chance)]]),
    other_look, other_supposed, solution_supposed, branch_left, lemma_wider, lemma_later, lemma_used,
    lambda made, chance: made.update(answer='none', solutions=[]),
    lambda made, chance: made.update(answer='one', solutions=made['solutions'][:1]),
    lambda made, chance: made.update(answer='several', solutions=made['solutions'][:1] * 2),
    # A first step strikes all numbers of a square.
    lambda made, chance: made['steps'].insert(0, ['line', 0, [[0, list(range(1, _size(made) + 1))]]]),
    # A second grid that shows that an item is needed stands for another item; and one is lacking.
    lambda made, chance: chance.shuffle(made['needed']),
    lambda made, chance: made['needed'].pop(chance.randrange(len(made['needed']))),
]  # fmt: skip
