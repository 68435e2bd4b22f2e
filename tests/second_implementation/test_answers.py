"""The answers that `crates/trial_runs` has to give to requests are those that the second implementation makes of its input."""

from itertools import islice
from typing import List, Tuple

import pytest

from tests.harness.builds import TOP
from tests.second_implementation.answers import answers, lines_of

TRIALS = TOP / 'crates' / 'trial_runs'

#: The stored run's output after the answers: how the call of its words is answered, which has no place in the second implementation.
CALLED = ['ok', 'changed']


def lines(name: str) -> List[str]:
    return (TRIALS / name).read_text(encoding='utf-8').splitlines()


REQUESTS = lines('stdin')


def wanted_answers() -> Tuple[List[Tuple[str, List[str]]], List[str]]:
    """Each request with the lines that have to answer it, and what lines there are beyond."""
    wanted = iter(lines('stdout'))
    return [(request, list(islice(wanted, lines_of(request)))) for request in REQUESTS], list(wanted)


WANTED, BEYOND = wanted_answers()


@pytest.mark.parametrize(('request_', 'owed'), WANTED, ids=REQUESTS)
def test_answer(request_: str, owed: List[str]) -> None:
    assert list(answers(request_, TRIALS / 'data')) == owed


def test_nothing_more_is_wanted() -> None:
    assert BEYOND == CALLED


def test_each_save_is_asked_for() -> None:
    asked = {request.partition(' ')[2] for request in REQUESTS}
    files = [str(path.relative_to(TRIALS / 'data')) for path in (TRIALS / 'data').rglob('*.sav')]
    assert [name for name in files if name not in asked] == []
