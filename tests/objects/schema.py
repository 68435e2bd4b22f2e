"""The keys of each object, with the types and ranges of their values (docs/JSON.md)."""

import re
from typing import Any, Dict, Iterator, Set


def text(value: object) -> bool:
    """Characters each of which stands for a byte; no LF."""
    return isinstance(value, str) and '\n' not in value and max(value, default='') <= '\xff'


def short(value: object) -> bool:
    """A line of a sentence: ASCII, and at most 100 characters."""
    return isinstance(value, str) and text(value) and value.isascii() and len(value) <= 100


BOOLEAN = (True, False)
CELL = range(81)
DIGIT = range(10)
NUMBER = range(1, 10)
LINE = range(18)
PLACE = range(-1, 10)

#: Texts that stand for one of a few things.
STATUSES = ('playing', 'solved', 'helped')
COUNTS = ('none', 'one', 'several')
KINDS = ('follows', 'nothing', 'contradiction')
STARTS = ('numbers', 'marks')
REASONS = ('given', 'peer', 'place', 'bound', 'stand', 'clue', 'sign', 'set')
GRADES = ('t', 'e', 'h', 'k')
PLACES = ('in', 'not', 'only', 'either')
STEP_NAMES = (
    'A clue 1', "A clue of the board's size", 'Too few towers', 'Too many towers', 'A number in no order', 'Too few or too many towers',
    'A number that a square takes', 'The only square for a number', 'Squares that share numbers', 'A sign',
)
HINT_NAMES = (
    'The last free square', 'The only number left', 'The only mark left', 'The only square left',
    'A square without a number', 'A square whose marks are too few', 'A number without a square',
)

#: The keys of the objects within an object.
SESSION: Dict[str, Any] = {
    'game': ('Towers', 'Unequal'),
    'id': text,
    'position': range(1, 100_001),
    'states': range(1, 100_001),
    'status': STATUSES,
}
CLUE: Dict[str, Any] = {'clue': NUMBER, 'done': BOOLEAN, 'error': BOOLEAN, 'x': PLACE, 'y': PLACE}
SIGN: Dict[str, Any] = {'error': BOOLEAN, 'greater': CELL, 'less': CELL}
BOARD: Dict[str, Any] = {
    'cheated': BOOLEAN,
    'clues': [CLUE],
    'completed': BOOLEAN,
    'errors': [CELL],
    'givens': [DIGIT],
    'marks': [[NUMBER]],
    'numbers': [DIGIT],
    'signs': [SIGN],
    'size': range(3, 10),
}
KNOWN: Dict[str, Any] = {'cell': CELL, 'numbers': [NUMBER]}
TOWER: Dict[str, Any] = {'cell': CELL, 'number': NUMBER, 'place': PLACES, 'seen': (None, 'fewer', 'more')}
STRIKE: Dict[str, Any] = {'cell': CELL, 'numbers': [NUMBER], 'shows': (None, [[NUMBER]])}
STEP: Dict[str, Any] = {
    'cells': (None, [CELL]),
    'clue': (None, NUMBER),
    'greater': (None, CELL),
    'known': [KNOWN],
    'least': (None, NUMBER),
    'less': (None, CELL),
    'line': (None, LINE),
    'most': (None, NUMBER),
    'name': STEP_NAMES,
    'numbers': (None, [NUMBER]),
    'reason': REASONS,
    'split': [TOWER],
    'strikes': [STRIKE],
    'text': [short],
    'x': (None, PLACE),
    'y': (None, PLACE),
}
HINT: Dict[str, Any] = {
    'by': (None, 'value', 'line'),
    'cell': (None, CELL),
    'from': STARTS,
    'grade': (None, *GRADES),
    'groups': [range(1, 730)],
    'kind': KINDS,
    'line': (None, LINE),
    'name': (None, *HINT_NAMES),
    'number': (None, NUMBER),
    'steps': [STEP],
    'text': [short],
    'unmarked': (None, CELL),
    'view': [[NUMBER]],
}

#: The members of each object that answers a line, and more, by the line that it answers.
COMMON: Dict[str, Any] = {'refused': (None, text), 'reply': [text], 'session': (None, SESSION)}
SPARE: Dict[str, Any] = {'clues': [{'x': PLACE, 'y': PLACE}], 'givens': [CELL], 'signs': [{'greater': CELL, 'less': CELL}]}
ANSWERS: Dict[str, Any] = {
    'board': BOARD,
    'completable': COUNTS,
    'grade': (None, *GRADES),
    'hint': HINT,
    'solutions': [[NUMBER]],
    'spare': SPARE,
}
LOST: Dict[str, Any] = {'lost': 'OutOfMemory'}


def names() -> Set[str]:
    """All keys that there are."""
    return {key for table in (COMMON, ANSWERS, SESSION, BOARD, CLUE, SIGN, HINT, STEP, KNOWN, TOWER, STRIKE, SPARE, LOST) for key in table}


def unfit(place: str, value: object, shape: Any) -> Iterator[str]:
    """The parts of a value, which stands at a place of an object, that aren't of a shape: one of several, a list of one, an object with exactly these keys, a
    whole number of a range, what a function says, or this very value."""
    if isinstance(shape, list) and isinstance(value, list):
        for at, item in enumerate(value):
            yield from unfit(f'{place}[{at}]', item, shape[0])
    elif isinstance(shape, dict) and isinstance(value, dict) and set(value) == set(shape):
        for key, inner in shape.items():
            yield from unfit(f'{place}.{key}', value[key], inner)
    elif not is_one(value, shape):
        yield f'{place} is {value!r}'


def is_one(value: object, shape: Any) -> bool:
    if isinstance(shape, tuple):
        return any(not list(unfit('', value, one)) for one in shape)
    if isinstance(shape, range):
        # No boolean is a number.
        return isinstance(value, int) and not isinstance(value, bool) and value in shape
    return bool(shape(value)) if callable(shape) else type(value) is type(shape) and value == shape


def wrong_object(found: Dict[str, Any], line: bytes) -> Iterator[str]:
    """The faults of the object that answers a line. A refusal is named where the reply is its line, and nowhere else; the own lines have no other reply."""
    key = line.decode('latin-1')
    key = 'spare' if re.fullmatch('spare [^ ]+', key) else 'hint' if key == 'hint marks' else key
    refused, reply = found.get('refused'), found.get('reply')
    yield from unfit('it', found, {**COMMON, key: ANSWERS[key]} if key in ANSWERS and refused is None else COMMON)
    if refused is not None and reply != [f'refused: {refused}']:
        yield f'refused is {refused!r}, and the reply {reply}'
    is_refusal = isinstance(reply, list) and len(reply) == 1 and str(reply[0]).startswith('refused: ')
    if refused is None and (is_refusal or (key in ANSWERS) == bool(reply)):
        yield f'nothing is refused, and the reply is {reply}'
