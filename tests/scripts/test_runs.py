"""The words of tests/run on cases that can't be tried, and of one that fails."""

import pytest

from tests.scripts.place import Place

#: Cases, three of which are skipped: with a reason that says how they could be tried, for want of a command, and without any.
CASES = """\
import pytest
from tests.harness import Skip, need

def test_passes() -> None:
    pass

def test_why() -> None:
    raise Skip('it is night', 'wait for the day')

def test_command(monkeypatch: pytest.MonkeyPatch) -> None:
    monkeypatch.setenv('PATH', '')
    need('mandoc')

def test_plain() -> None:
    pytest.skip('no more is known')

"""
FAILED = 'def test_fails() -> None:\n    assert False\n'

TOLD = """\
What can't be tried here, and how many cases:
     1  it is night. To try it: wait for the day
     1  there is no mandoc. To try it: apt-get install mandoc
     1  no more is known
"""


@pytest.mark.parametrize(('cases', 'skips_fail', 'status', 'says'), [
    (CASES, '', 0, '1 passed, 0 failed, 3 skipped\n'),
    (CASES, '1', 1, 'so this has failed; SKIPS_FAIL=0 lets it pass.\n1 passed, 0 failed, 3 skipped\n'),
    (CASES + FAILED, '', 1, '1 passed, 1 failed, 3 skipped\n'),
], ids=['some are skipped', 'some are, which fails', 'one fails'])
def test_skips(place: Place, cases: str, skips_fail: str, status: int, says: str) -> None:
    place.put('tests/tried/test_tried.py', cases.encode(), 0o644)
    ended = place.run(['tests/run', place.program, place.objects, 'tests/tried', '-n0'], env={'SKIPS_FAIL': skips_fail})
    assert ended.expect(TOLD, status=status).said.endswith(says)
