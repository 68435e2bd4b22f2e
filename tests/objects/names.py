"""The names of hints and steps, the end of a contradiction, and the squares that are known, as docs/JSON.md has them."""

from typing import Any, List, Optional, Tuple

from tests.objects.reading import Object
from tests.objects.words import line_name, square
from tests.second_implementation.steps import Left

#: The names of steps that need no more than their kind.
OF_KINDS = {
    'given': 'A number that a square takes', 'peer': 'A number that a square takes', 'place': 'The only square for a number', 'set': 'Squares that share numbers',
    'sign': 'A sign',
}

#: The names of hints by words of their last sentence; the first that applies counts.
OF_ENDS = (
    ('has no square left for', 'A number without a square'),
    ('no other square of', 'The only square left'),
    ('it is the last free square of', 'The last free square'),
)
OF_MARKS = ("isn't among its marks", "aren't among its marks")


def step_name(size: int, step: Object) -> str:
    if step['clue'] is None:
        return OF_KINDS[step['reason']]
    clue = step['clue']
    if clue in (1, size):
        return 'A clue 1' if clue == 1 else "A clue of the board's size"
    sides = {side_of(clue, counts) for strike in step['strikes'] for counts in strike['shows']}
    names = {'below': 'Too few towers', 'above': 'Too many towers', 'none': 'A number in no order'}
    return names.get(sides.pop(), 'Too few or too many towers') if len(sides) == 1 else 'Too few or too many towers'


def side_of(clue: int, counts: List[int]) -> str:
    if not counts:
        return 'none'
    return 'below' if max(counts) < clue else 'above' if min(counts) > clue else 'both'


def last_sentence(hint: Object) -> str:
    """The last sentence, on one line."""
    begins = [at for at, line in enumerate(hint['text']) if line.startswith('So ')]
    return ' '.join(line.strip() for line in hint['text'][begins[-1]:])


def hint_name(hint: Object) -> Optional[str]:
    if hint['kind'] == 'nothing':
        return None
    said = last_sentence(hint)
    for words, name in OF_ENDS:
        if words in said:
            return name
    of_marks = any(words in said for words in OF_MARKS)
    if hint['kind'] == 'contradiction':
        return 'A square whose marks are too few' if of_marks else 'A square without a number'
    return 'The only mark left' if of_marks else 'The only number left'


def end_of_contradiction(size: int, hint: Object) -> Tuple[Any, Any, Any]:
    """The square, line and number that the last sentence of a contradiction names."""
    said = last_sentence(hint)
    for line in range(2 * size):
        for number in range(1, size + 1):
            if said == f'So {line_name(size, line)} has no square left for {number}.':
                return None, line, number
    return next(cell for cell in range(size * size) if said.startswith(f'So {square(size, cell)} has no number left: ')), None, None


def expect_known(left: Left, step: Object) -> None:
    """Known squares rise, each with all that is left of it, and the sentence names each before its colon, as well as those of towers, or their line."""
    known, size = step['known'], round(len(left) ** 0.5)
    assert [told['cell'] for told in known] == sorted({told['cell'] for told in known})
    before = ' '.join(line.strip() for line in step['text']).partition(': ')[0].lower()
    for told in known:
        assert told['numbers'] == sorted(left[told['cell']])
        assert square(size, told['cell']) in before
    for tower in step['split']:
        assert tower['place'] == 'either' or square(size, tower['cell']) in before or ', by what is left in ' in before
        assert tower['seen'] is None or tower['place'] != 'either'
