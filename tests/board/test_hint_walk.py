"""A hint as a walk, from objects as docs/JSON.md has them: names at the head of its sentences, the squares that these name, and where a contradiction ends."""

from typing import Any, Dict, List, Tuple

import pytest

from playing.board import Board, Session, hint_of
from playing.hint_walk import HintWalk

BOARD = Board(Session('towers', '3:', 1, 1, 'playing'), 3, {}, frozenset(), {}, {}, [], frozenset())

STEP: Dict[str, Any] = {'reason': 'clue', 'x': -1, 'y': 1, 'clue': 2, 'greater': None, 'less': None, 'cells': None, 'line': None, 'numbers': None}
SENTENCE = ['Clue 2 left of row 2, where r2c3 is 3:', '   with a 1 in r2c1 more than 2 towers would be seen.']
STRIKE: Dict[str, Any] = {'strikes': [{'cell': 3, 'numbers': [1], 'shows': [[3]]}], 'text': SENTENCE}
TEXT = [f'1. {SENTENCE[0]}', SENTENCE[1], 'So r2c1 is 2: 1 is ruled out above.']
HINT: Dict[str, Any] = {'kind': 'follows', 'cell': 3, 'number': 2, 'line': None, 'grade': 'h', 'groups': [1], 'text': TEXT}

#: All squares of the clue's row.
ROW = {(0, 1), (1, 1), (2, 1)}


def walk(step: Dict[str, Any], **hint: Any) -> HintWalk:
    return HintWalk(hint_of({**HINT, 'steps': [{**STEP, **STRIKE, **step}], **hint}), BOARD)


def test_names() -> None:
    """They stand behind the number; a program that gives none has none."""
    named, plain = walk({'name': 'Too many towers'}, name='The only number left'), walk({})
    assert named.whole() == [
        '1. Too many towers. Clue 2 left of row 2, where r2c3 is 3: with a 1 in r2c1 more than 2 towers would be seen.',
        'The only number left. So r2c1 is 2: 1 is ruled out above.',
    ]
    assert [named.part(at).text[:20] for at in (0, 1)] == ['Too many towers. Clu', 'The only number left']
    assert [text[:10] for text in plain.whole()] == ['1. Clue 2 ', 'So r2c1 is']
    assert plain.part(0).text.startswith('Clue 2 left of row 2, where')


def test_name_of_several() -> None:
    """Steps of one sentence have its name once."""
    steps = [{**STEP, **STRIKE, 'name': name} for name in ('A clue 1', 'A clue 1', 'Too many towers')]
    for count, head in ((2, 'A clue 1. '), (3, 'A clue 1; Too many towers. ')):
        assert HintWalk(hint_of({**HINT, 'steps': steps[:count], 'groups': [count]}), BOARD).part(0).text.startswith(head + 'Clue 2')


#: The members of a step, and the squares beside its clue that are shown with it.
NAMED: List[Tuple[Dict[str, Any], Any]] = [
    ({}, ROW),
    ({'known': [], 'split': []}, ROW),
    ({'known': [{'cell': 5, 'numbers': [3]}], 'split': []}, {(2, 1)}),
    ({'known': [{'cell': 5, 'numbers': [3]}], 'split': [{'cell': 4, 'number': 3, 'place': 'in', 'seen': 'more'}]}, {(1, 1), (2, 1)}),
]


@pytest.mark.parametrize(('members', 'squares'), NAMED)
def test_named_squares(members: Dict[str, Any], squares: Any) -> None:
    """Where to look is the whole line."""
    told = walk(members)
    assert told.part(0).shown.rests_on == {(-1, 1), *squares}
    assert told.look().shown.rests_on == {(-1, 1), *ROW}


#: The ends of contradictions: of an older program, a square, and a column.
ENDS: List[Tuple[Dict[str, Any], Any]] = [
    ({'cell': None, 'number': None}, {(0, 1)}),
    ({'cell': 8, 'number': None}, {(2, 2)}),
    ({'cell': None, 'line': 4, 'number': 3}, {(1, 0), (1, 1), (1, 2)}),
]


@pytest.mark.parametrize(('members', 'squares'), ENDS)
def test_contradictions(members: Dict[str, Any], squares: Any) -> None:
    """None has a number to be put in."""
    told = walk({}, **{**members, 'kind': 'contradiction'})
    assert (told.is_refutation, told.place, told.move) == (True, None, None)
    assert told.part(1).shown.rests_on == squares
