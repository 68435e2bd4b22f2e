"""The words of the gate on parts that pass, fail, skip, or say nothing."""

import os
import re
from typing import List, Mapping, NamedTuple, Sequence, Tuple

import pytest

from tests.harness import by_name
from tests.scripts.place import Place
from tests.harness.program import Ended

PROVED = '5 passed, 0 failed'
PASSED = '1 passed, 0 failed, 0 skipped'

#: The part that does otherwise than the others in a case.
PART = 'tools/test_bodies'


class Gate(NamedTuple):
    """The last words and statuses of `rt ci` and one part of the others, and the words that the gate has to say of those two."""

    name: str
    proofs: Tuple[str, int] = (PROVED, 0)
    part: Tuple[str, int] = (PASSED, 0)
    env: Mapping[str, str] = {}
    #: Passed, failed and skipped.
    counts: Tuple[int, int, int] = (6, 0, 0)
    status: int = 0


ALLOWED = {'SKIPS_FAIL': '0'}
SKIPPED = ('2 passed, 0 failed, 3 skipped', 0)

ROUNDS = [
    Gate('all passes'),
    Gate('proofs fail', proofs=('3 passed, 2 failed', 1), counts=(4, 2, 0), status=1),
    Gate('proofs say that none failed, and end badly', proofs=(PROVED, 1), counts=(6, 1, 0), status=1),
    Gate('proofs break off', proofs=('out of memory', 3), counts=(1, 1, 0), status=1),
    Gate('a part fails', part=('2 passed, 3 failed, 0 skipped', 1), counts=(7, 3, 0), status=1),
    Gate('a part breaks off', part=('Traceback', 1), counts=(5, 1, 0), status=1),
    Gate('a part says nothing', part=('', 0), counts=(5, 1, 0), status=1),
    Gate('a part says that none failed, and ends badly', part=(PASSED, 1), counts=(6, 1, 0), status=1),
    Gate('only the last count counts', part=(f'9 passed, 9 failed, 9 skipped\nonce more\n{PASSED}', 0)),
    Gate('a part skips', part=SKIPPED, counts=(7, 0, 3), status=1),
    Gate('a part takes a skip for a failure', part=(SKIPPED[0], 1), counts=(7, 0, 3), status=1),
    Gate('a part skips, which is allowed', part=SKIPPED, env=ALLOWED, counts=(7, 0, 3)),
    Gate('a part skips, which is allowed, and ends badly', part=(SKIPPED[0], 1), env=ALLOWED, counts=(7, 1, 3), status=1),
    Gate('a part skips and fails', part=('2 passed, 1 failed, 3 skipped', 1), env=ALLOWED, counts=(7, 1, 3), status=1),
]

#: Ways to start the gate, each with the folder from which; and what a stranger's machine runs: the tests, which are a part of the gate too, and then the gate.
WAYS = [(['make', 'gate'], '', 0), (['../../tools/gate'], 'crates/puzzles', 0), (['.ci/run'], '', 1), (['bash', '../.ci/run'], 'man', 1)]

#: All is proved anew.
ANEW = {'ANEW': '1'}


@pytest.fixture
def scripts(place: Place) -> List[str]:
    """The scripts that are parts of the gate, each of which has passed one."""
    found = part_scripts(place)
    for script in set(found):
        put_part(place, script, (PASSED, 0))
    return found


@pytest.mark.parametrize('row', ROUNDS, ids=by_name)
def test_part(place: Place, scripts: List[str], row: Gate) -> None:
    put_part(place, PART, row.part)
    expect(place, row, len(scripts) - 1, ['tools/gate'])


@pytest.mark.parametrize(('words', 'cwd', 'more'), WAYS)
def test_gate(place: Place, scripts: List[str], words: List[str], cwd: str, more: int) -> None:
    expect(place, Gate('all passes'), len(scripts) - 1 + more, words, cwd)


def test_no_part(place: Place, scripts: List[str]) -> None:
    os.remove(os.path.join(place.path, PART))
    expect(place, Gate('a part is not there', counts=(5, 1, 0), status=1), len(scripts) - 1, ['tools/gate'])


def part_scripts(place: Place) -> List[str]:
    """The scripts that the gate of this repository runs, as often as it does."""
    return re.findall(r"^    ['\"].*['\"]: \['((?:tools|tests)/[\w/]+)'", place.file('tools/gate').decode(), re.MULTILINE)


def put_part(place: Place, script: str, says: Tuple[str, int]) -> None:
    """A script that says so, and before it what a skip is for it."""
    text, status = says
    place.put(script, f"#!/bin/sh\necho \"a skip fails: $SKIPS_FAIL\"\necho '{text}'\nexit {status}\n".encode())


def expect(place: Place, row: Gate, others: int, words: Sequence[str], cwd: str = '') -> None:
    """Each of the other parts has passed one."""
    text, status = row.proofs
    ended = place.run(words, cwd=cwd, env={'RT_SAYS': text, 'RT_STATUS': str(status), **ANEW, **row.env})
    passed, failed, skipped = row.counts
    assert set(re.findall(r'^a skip fails: (.*)', ended.said, re.MULTILINE)) == {row.env.get('SKIPS_FAIL', '1')}
    # Where a command fails, `make` ends with a status of its own.
    expect_last(ended, f'{passed + others} passed, {failed} failed, {skipped} skipped', 2 * row.status if 'make' in words else row.status)


def expect_last(ended: Ended, line: str, status: int) -> None:
    assert ended.output.decode(errors='replace').splitlines()[-1:] == [line], ended.error
    assert ended.status == status


def test_both_fail(place: Place, scripts: List[str]) -> None:
    """A case that fails is counted, and so is the gate after them."""
    put_part(place, 'tests/run', ('1 passed, 2 failed', 1))
    # The gate runs the tests six times more.
    expect(place, Gate('the tests fail, and then the gate', counts=(6, 14, 0), status=1), len(scripts), ['.ci/run'])


def test_ci(place: Place, scripts: List[str]) -> None:
    """Proofs and results that earlier runs have kept are taken there, as its first lines say, whatever the environment wants."""
    said = place.run(['.ci/run'], env={'RT_SAYS': PROVED, **ANEW}).output.decode()
    assert re.match(r'This gate takes from earlier runs on this machine .*make gate ANEW=1.*\n== make .* test\n', said, re.DOTALL)
    assert re.findall('asked for (ci.*) in', said) == ['ci']


@pytest.mark.parametrize(('help_text', 'asked'), [('rt ci [--anew]', 'ci --anew'), ('rt ci', 'ci')], ids=['a kit with the word', 'one without'])
def test_logged(place: Place, scripts: List[str], help_text: str, asked: str) -> None:
    """The log begins with the commit and the prover, and has the sums of the programs and all that was said. All is proved anew by a word that the kit knows."""
    place.run(['tools/gate'], env={'RT_SAYS': PROVED, 'RT_HELP': help_text, **ANEW})
    log = place.file('build/gate.log').decode()
    for text in (r'\Acommit unknown\nprover a kit that proves nothing\n== ', rf'^asked for {asked} in checkout$',
                 r'^[0-9a-f]{64}  crates/puzzles/out/puzzles$', r'^[0-9]+ passed, 0 failed, 0 skipped\n\Z'):
        assert re.search(text, log, re.MULTILINE), log


@pytest.mark.parametrize(('name', 'status'), [('INT', 130), ('TERM', 143)])
def test_stopped(place: Place, scripts: List[str], name: str, status: int) -> None:
    """A gate that is ended in a part says so in a line, in its log, too, and counts nothing."""
    script = f'#!/bin/sh\necho begun\nuntil grep -q ^begun build/gate.log; do :; done\nkill -s {name} $PPID\nexec sleep 600\n'
    place.put(PART, script.encode())
    ended = place.run(['env', '--default-signal=INT', 'tools/gate'], env={'RT_SAYS': PROVED})
    assert ended.error.decode() == f'stopped by SIG{name}\n'
    assert not re.search('[0-9]+ passed, .* skipped$', ended.output.decode())
    assert place.file('build/gate.log').endswith(b'\nstopped\n')
    assert ended.status == status
