"""The module that lies in the tree: its heap against a model, growths of its memory that are refused, a stack that is too short, and many lines."""

import re
import resource
import shutil
from typing import NamedTuple, Sequence

import pytest

from tests.harness import Room, by_name, in_the_gate, run
from tests.harness.builds import TOP

HERE = TOP / 'tests' / 'module'
MODULE = TOP / 'programs' / 'web' / 'puzzles.wasm'
HEAP = TOP / 'tools' / 'web_build' / 'heap.c'

#: The compiler of the system, with what it finds wrong while the heap runs.
COMPILE = ['gcc', '-O1', '-fsanitize=address,undefined', '-fno-sanitize-recover', '-Wall', '-Wextra', '-Werror', '-Wno-attributes', '-Wno-unused-parameter']


class Trial(NamedTuple):
    """A script of node over the module, and what it says where all is well."""

    name: str
    words: Sequence[str]
    says: str


#: Of a processor.
MOST_SECONDS = 200

TRIALS = [
    Trial('each growth of memory is refused in turn', ['little_memory.mjs', str(MODULE)], r'\d+ limits, \d{2,} lines refused\n'),
    Trial('the stack is too short', ['little_stack.mjs', str(MODULE)], r'\d+ bytes are enough, \d{2,} lines trapped\n'),
    Trial('the memory grows no more', ['many_lines.mjs', str(MODULE), '100000'], r'1000\d\d lines, memory of \d+ bytes, grown by 0\n'),
]


@pytest.mark.parametrize('trial', in_the_gate(zip(TRIALS), lambda row: row[0].name == 'the memory grows no more'), ids=by_name)
def test_node(room: Room, trial: Trial) -> None:
    if not shutil.which('node'):
        pytest.skip('there is no node')
    script, *words = trial.words
    # Its time is counted by the processor, since others are at work, too.
    limits = {resource.RLIMIT_CPU: MOST_SECONDS}
    ended = run([shutil.which('node') or '', str(HERE / 'node' / script), *words], room, limits=limits, seconds=20 * MOST_SECONDS)
    assert (ended.status, ended.error) == (0, b''), ended.said
    assert re.fullmatch(trial.says, ended.output.decode()), ended.said


@pytest.mark.parametrize(('seed', 'pages'), [(1, 2000), (2, 200), (3, 20), (4, 1)])
def test_heap(room: Room, seed: int, pages: int) -> None:
    if not shutil.which('gcc'):
        pytest.skip('there is no gcc')
    sources = [str(HERE / 'heap_trial.c'), str(HEAP)]
    run([*COMPILE, '-include', str(HERE / 'heap_trial.h'), '-o', 'heap_trial', *sources], room).expect()
    run([f'{room.path}/heap_trial', str(seed), '30000', str(pages)], room).expect('blocks taken')
