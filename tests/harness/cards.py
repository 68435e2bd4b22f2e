"""The hints of each card of the course: the table of the lessons, which have each kind of step that a hint can have."""

from typing import Dict, List, NamedTuple, Optional, Sequence, Tuple


class Shows(NamedTuple):
    """The square in which a number follows and that number, counted as in sentences; the reasons of the steps, and whether a row or column is named."""

    square: Optional[Tuple[int, int]]
    number: Optional[int]
    reasons: Sequence[str]
    is_by_line: bool = False


SHOWS: Dict[str, List[Shows]] = {
    'towers': [
        Shows((2, 2), 1, []),
        Shows((1, 3), 3, ['bound']),
        Shows((4, 4), 1, ['bound']),
        Shows((4, 1), 1, ['bound']),
        Shows((3, 1), 4, ['bound'], is_by_line=True),
        Shows((3, 4), 2, ['stand']),
        Shows((1, 3), 2, ['clue']),
        Shows(None, None, ['bound', 'bound']),
        Shows((4, 3), 2, ['bound']),
    ],
    'unequal': [
        Shows((2, 3), 3, []),
        Shows((2, 1), 2, []),
        Shows((2, 1), 3, [], is_by_line=True),
        Shows((2, 3), 2, ['sign']),
        Shows((1, 3), 3, ['sign']),
        Shows((3, 4), 4, ['sign'], is_by_line=True),
        Shows((3, 1), 1, ['sign', 'sign'], is_by_line=True),
        Shows((4, 2), 5, ['set'], is_by_line=True),
        Shows(None, None, ['sign']),
    ],
}
