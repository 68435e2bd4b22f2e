"""The page reads the same of drawings as the commands do, and writes the same."""

import json
import shutil
import subprocess
from typing import Any, List

import pytest

from playing import drawings
from playing.drawings import writing
from tests.drawings import damage
from tests.drawings.forms import forms
from tests.drawings.puzzles import puzzles
from tests.drawings.rows import ROWS
from tests.harness import TOP, Skip

TEXTS = {
    'forms': [drawing for puzzle in puzzles(2, 1) for drawing in forms(puzzle).values()],
    'damaged': [broken for *_, broken in damage.some(12, 300)],
    'rows': [row.text for row in ROWS],
    'several': ['\n'.join(forms(puzzle)[name] for puzzle in puzzles(seed, 1)) for seed in (3, 4) for name in ('show', 'CRLF')],
}


def told(read: drawings.Read) -> List[Any]:
    puzzle = read.puzzle
    items = [puzzle.game, puzzle.size, *puzzle.items] if puzzle else None
    written = [puzzle.called, writing.copied(puzzle), writing.tabbed(puzzle)] if puzzle else None
    return [read.line, read.column, items, read.id, read.game, read.why, read.doubt, written]


@pytest.mark.parametrize('name', TEXTS)
def test_same(name: str) -> None:
    node = shutil.which('node') or shutil.which('nodejs')
    if not node:
        raise Skip('there is no node')
    texts = TEXTS[name]
    ended = subprocess.run([node, str(TOP / 'tests' / 'drawings' / 'told.mjs')], input=json.dumps(texts).encode(), capture_output=True, check=False)
    assert ended.returncode == 0, ended.stderr.decode()
    differ = [(text, here, there) for text, here, there in zip(texts, ([told(read) for read in drawings.read(text)] for text in texts), json.loads(ended.stdout)) if here != there]
    assert not differ
