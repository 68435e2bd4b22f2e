"""The sentences of a hint, told of its object alone, as docs/HINTS.md has them: without a rule of play, and without counting towers."""

import textwrap
from itertools import islice
from math import isqrt
from typing import List, Sequence, Tuple

from tests.objects.words import capital, joined, line_name, losses, square, squares
from tests.second_implementation.puzzles import cells_of
from tests.second_implementation.steps import NONE, Left, each, peers
from tests.second_implementation.telling_clues import Object, clue_sentence, clues_sentence, strikes_of

#: How many characters a line of text has at most.
WIDTH = 100


def tell(hint: Object, numbers: Sequence[int]) -> Tuple[List[List[str]], List[str]]:
    """The text of each step, and of the hint. The board's numbers, 0 for none, say what stands: a view of one number doesn't."""
    size, left = isqrt(len(hint['view'])), [frozenset(view) for view in hint['view']]
    alone: List[str] = []
    for step in hint['steps']:
        alone.append(sentence_of(size, left, step))
        struck = strikes_of(step)
        left = [values - struck.get(cell, NONE) for cell, values in enumerate(left)]
    told, whole = iter(zip(hint['steps'], alone)), []
    for at, count in enumerate(hint['groups']):
        steps, sentences = zip(*islice(told, count))
        whole += cut(f'{at + 1}. {sentences[0] if count == 1 else sentence_of_several(size, steps)}')
    whole += cut(f'So {ending(size, hint, numbers)}.') if hint['kind'] != 'nothing' else []
    return [cut(sentence) for sentence in alone], whole


def cut(sentence: str) -> List[str]:
    return textwrap.wrap(sentence, WIDTH, subsequent_indent='   ')


# ---- a step


def sentence_of(size: int, left: Left, step: Object) -> str:
    if step['clue'] is not None:
        return clue_sentence(size, step)
    if step['reason'] == 'place':
        cell, number = step['cells'][0], step['numbers'][0]
        if number not in left[cell] == strikes_of(step)[cell]:
            return f"No other square of {line_name(size, step['line'])} can be {number}, nor can {square(size, cell)}."
    return f'{capital(why_of(size, left, step))}: {losses(size, strikes_of(step))}.'


def why_of(size: int, left: Left, step: Object) -> str:
    if step['reason'] == 'sign':
        ends = [step['greater'], step['less']]
        to, other = ends if direction(step) == 'greater' else ends[::-1]
        what = step['least'] if step['least'] == step['most'] else bound([step])
        return f"{square(size, to)} is {direction(step)} than {square(size, other)}{f', which is {what}' if what else ''}"
    if step['reason'] in ('peer', 'set') and len(step['cells']) == 1:
        return f"{squares(size, step['cells'])} is {min(left[step['cells'][0]])}"
    if step['reason'] == 'set':
        return f"in {line_name(size, step['line'])} {sharing(size, left, step)}"
    line, number = line_name(size, step['line']), step['numbers'][0]
    has_one = number in left[step['cells'][0]]
    return f"in {line} only {squares(size, step['cells'])} can be {number}" if has_one else f'no other square of {line} can be {number}'


def sharing(size: int, left: Left, step: Object) -> str:
    """The squares that take the numbers among them; or the other open squares of the line, the only ones for other numbers, if those are fewer."""
    line = cells_of(size, step['line'])
    others = [cell for cell in line if cell not in step['cells'] and len(left[cell]) != 1]
    over = each(size).difference(step['numbers'], *(left[cell] for cell in line if len(left[cell]) == 1))
    is_fewer = len(others) == len(over) < sum(len(left[cell]) > 1 for cell in step['cells'])
    if is_fewer and strikes_of(step).keys() <= {*others}:
        return f"only {squares(size, others)} can be {joined(sorted(over), 'or')}"
    return f"{squares(size, step['cells'])} take {joined(step['numbers'], 'and')} among them"


def direction(step: Object) -> str:
    """The end of a sign that loses numbers."""
    return 'greater' if step['greater'] in strikes_of(step) else 'less'


def bound(steps: Sequence[Object]) -> str:
    """The bound of all the other ends, if one is told."""
    least, most = [step['least'] for step in steps if step['least']], [step['most'] for step in steps if step['most']]
    return f'at least {min(least)}' if direction(steps[0]) == 'greater' and least else f'at most {max(most)}' if most else ''


def sentence_of_several(size: int, steps: Sequence[Object]) -> str:
    if steps[0]['clue'] is not None:
        return clues_sentence(size, steps)
    that = f' that is {bound(steps)}' if bound(steps) else ''
    cells = squares(size, [strike['cell'] for step in steps for strike in step['strikes']])
    return f"{capital(cells)} are each {direction(steps[0])} than a neighbour{that}: they are not {steps[0]['strikes'][0]['numbers'][0]}."


# ---- the last sentence


def ending(size: int, hint: Object, numbers: Sequence[int]) -> str:
    cell, number = hint['cell'], hint['number']
    if cell is None:
        return f"{line_name(size, hint['line'])} has no square left for {number}"
    if number is None:
        why = f'its {numbers[cell]} is ruled out above' if numbers[cell] else where_gone(size, hint, numbers)
        return f'{square(size, cell)} has no number left: {why}'
    return f'{square(size, cell)} is {number}: {shown(size, hint, numbers)}'


def shown(size: int, hint: Object, numbers: Sequence[int]) -> str:
    cell = hint['cell']
    if hint['line'] is not None:
        return f"no other square of {line_name(size, hint['line'])} can be {hint['number']}"
    if hint['name'] != 'The last free square':
        return where_gone(size, hint, numbers)
    line = next(line for line in (cell // size, size + cell % size) if all(numbers[other] for other in cells_of(size, line) if other != cell))
    return f'it is the last free square of {line_name(size, line)}'


def where_gone(size: int, hint: Object, numbers: Sequence[int]) -> str:
    """The other numbers of the square: those that stand, those that steps ruled out, and those that aren't marked."""
    view, stand = frozenset(hint['view'][hint['cell']]), {numbers[cell] for cell in peers(size, hint['cell'])} - {0}
    parts = []
    for gone, one, several in (
        (stand, 'stands in its row or column', 'stand in its row or column'),
        (view - {hint['number']}, 'is ruled out above', 'are ruled out above'),
        (each(size) - stand - view, "isn't among its marks", "aren't among its marks"),
    ):
        parts += [f"{joined(sorted(gone), 'and')} {one if len(gone) == 1 else several}"] if gone else []
    return ', '.join([*parts[:-1], f"{'and ' * (len(parts) > 1)}{parts[-1]}"])
