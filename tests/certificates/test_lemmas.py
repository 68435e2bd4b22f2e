"""Lemmas, of squares that can't all have some numbers: those that are shown are used, and each lie about one is refused by both checkers."""

import json
from typing import Any, List

import pytest

from tests.certificates.checking import both
from tests.certificates.test_bad_input import GOOD, STEPS
from tests.harness import Room, named

#: No two of the first row are 1: shown for two squares, and for one by the clue above it. In the solution the first row is 1 2 3.
ROW: List[Any] = ['lemma', [[0, [1]], [1, [1]]], [['line', 0, [[1, [1]]]]]]
SINGLE: List[Any] = ['lemma', [[0, [2, 3]]], [['clue', 0, [[0, [2, 3]]]]]]
CORNER = STEPS[0]


def kept(place: Any, *strikes: Any) -> List[Any]:
    return ['kept', place, list(strikes)]


def lemma(numbers: Any, *steps: Any) -> List[Any]:
    return ['lemma', numbers, list(steps)]


def deep(count: int) -> List[Any]:
    """A lemma without an end in another one, and so on."""
    steps: List[Any] = []
    for _ in range(count):
        steps = [lemma([[0, [1]]], *steps)]
    return steps


#: Steps before those that end the certificate, and the status.
LEMMAS = [
    ('used', [ROW, CORNER, kept(0, [1, [1]])], 0),
    ('not used', [ROW], 0),
    ('of one square', [SINGLE, kept(0, [0, [2, 3]])], 0),
    ('used for another', [ROW, lemma([[0, [1]], [1, [1, 3]], [2, [3]]], kept(0, [1, [1]]), ['line', 0, [[1, [3]]]])], 0),
    ('used below a supposition', [ROW, ['suppose', 0, 3, [['clue', 0, [[0, [3]]]], kept(0, [0, [1]])]]], 1),
    ('used below one, with its number', [ROW, CORNER, ['suppose', 1, 1, [kept(0, [1, [1]])]]], 0),
    ('used twice', [ROW, CORNER, kept(0, [1, [1]]), kept(0, [1, [1]])], 0),
    ('of a square without numbers', [lemma([[0, []]])], 0),
    ('without an end', [lemma(ROW[1])], 1),
    ('of the solution', [lemma([[0, [1]], [1, [2]]], ['line', 0, [[1, [1]]]])], 1),
    ('of all numbers', [lemma([[0, [1, 2, 3]], [1, [1, 2, 3]]], ['line', 0, [[1, [1]]]])], 1),
    ('of no squares', [lemma([])], 1),
    ('by what does not follow', [lemma(ROW[1], ['line', 3, [[1, [1]]]])], 1),
    ('by steps for another square', [lemma([[0, [1]], [2, [1]]], *ROW[2])], 1),
    ('by itself', [lemma(ROW[1], kept(0, [1, [1]]))], 1),
    ('by a later one', [lemma(ROW[1], kept(1, [1, [1]])), ROW], 1),
    ('two by each other', [lemma(ROW[1], kept(1, [1, [1]])), lemma(ROW[1], kept(0, [1, [1]]))], 1),
    ('used before it is shown', [CORNER, kept(0, [1, [1]]), ROW], 1),
    ('none is there', [CORNER, kept(0, [1, [1]])], 1),
    ('one too far', [ROW, CORNER, kept(1, [1, [1]])], 1),
    ('another square has more', [ROW, kept(0, [1, [1]])], 1),
    ('another number', [ROW, CORNER, kept(0, [1, [2]])], 1),
    ('a number more', [ROW, CORNER, kept(0, [1, [1, 2]])], 1),
    ('another square', [ROW, CORNER, kept(0, [2, [1]])], 1),
    ('the square that has its number', [ROW, CORNER, kept(0, [0, [1]])], 1),
    ('both squares', [ROW, CORNER, kept(0, [1, [1]], [0, [1]])], 1),
    ('shown below a supposition', [['suppose', 0, 2, [SINGLE, kept(0, [0, [2]])]], kept(0, [0, [3]])], 1),
    ('shown in another one', [lemma([[0, [2]]], SINGLE, kept(0, [0, [2]])), kept(1, [0, [3]])], 1),
    ('by what was supposed', [lemma([[0, [1]], [1, [2]]], CORNER), kept(0, [1, [2]])], 1),
    ('a square twice', [lemma([[0, [1]], [0, [2]]])], 1),
    ('a square twice, shown by one and used by the other', [lemma([[0, [1]], [0, [2]]], ['clue', 0, [[0, [2]]]]), kept(0, [0, [1]])], 1),
    ('no numbers of another square', [lemma([[0, []], [1, [2]]]), CORNER, kept(0, [1, [2]])], 1),
    ('of the first kept number', [ROW, SINGLE, CORNER, kept(1, [1, [1]])], 1),
    ('far from any', [ROW, CORNER, kept((16 << 20) - 1, [1, [1]])], 1),
    ('farther', [ROW, CORNER, kept(16 << 20)], 2),
    ('below 0', [ROW, CORNER, kept(-1, [1, [1]])], 2),
    ('a place that is a list', [ROW, CORNER, kept([0], [1, [1]])], 2),
    ('a place that is true', [ROW, CORNER, kept(True, [1, [1]])], 2),
    ('a place of 30 digits', [ROW, CORNER, kept(10**30, [1, [1]])], 2),
    ('of single numbers', [lemma([[0, 1], [1, 1]], *ROW[2])], 2),
    ('of numbers above the size', [lemma([[0, [4]]])], 2),
    ('off the grid', [lemma([[9, [1]]])], 2),
    ('of an object', [lemma({'0': [1]})], 2),
    ('without steps', [ROW[:2]], 2),
    ('with more', [[*ROW, []]], 2),
    ('81 deep', deep(81), 1),
    ('82 deep', deep(82), 2),
]


@pytest.mark.parametrize(('steps', 'status'), named(LEMMAS))
def test_lemma(room: Room, steps: List[Any], status: int) -> None:
    room.put('certificate', json.dumps({**GOOD, 'steps': [*steps, *STEPS]}).encode())
    python, node = both(room, 'certificate')
    assert (python.status, python.error) == (node.status, node.error) == (status, b''), python.said[-500:]
    assert python.output == node.output
