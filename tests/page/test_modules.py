"""The modules of the page by themselves: their types, their own tests, their lengths, and where their sentences stand."""

import json
import re
import shutil
import subprocess
from pathlib import Path
from typing import Dict, Iterator, List, Tuple

import pytest

from board import keys
from tests.harness import TOP, Room, Skip

PAGE = TOP / 'page'

UNITS = TOP / 'tests' / 'page' / 'unit'

#: How strictly types are read.
OPTIONS = {
    'allowJs': True, 'checkJs': True, 'strict': True, 'noEmit': True, 'noUnusedLocals': True, 'noUnusedParameters': True,
    'target': 'es2022', 'module': 'es2022', 'moduleResolution': 'node', 'lib': ['es2022', 'dom', 'dom.iterable'], 'types': [],
}  # fmt: skip

#: The most lines of a module, and of a function.
MODULE_LINES, FUNCTION_LINES = 300, 40

#: The actions of the board in a terminal by other names here; the present keys of the others have the same.
OTHERWISE = {'pencil': 'marks', 'all marks': 'all', 'done mark': 'done', 'open': 'games', 'save as': 'save', 'show ID': 'id', 'help': 'rules'}


def found(*names: str) -> str:
    """The first command of these that is there. Where none is the case is skipped."""
    for name in names:
        path = shutil.which(name)
        if path:
            return path
    raise Skip(f'there is no {names[0]}')


def modules() -> List[Path]:
    return sorted(PAGE.glob('*.js'))


def test_types(room: Room) -> None:
    room.put('tsconfig.json', json.dumps({'compilerOptions': OPTIONS, 'files': [str(path) for path in modules()]}).encode())
    ended = subprocess.run([found('tsc'), '-p', room.path], capture_output=True, check=False, timeout=600)
    assert (ended.stdout.decode(), ended.returncode) == ('', 0)


@pytest.mark.always
def test_units() -> None:
    """By node's own runner."""
    names = sorted(str(path) for path in UNITS.glob('*.test.mjs'))
    ended = subprocess.run([found('node', 'nodejs'), '--test', *names], capture_output=True, check=False, timeout=600)
    told = ended.stdout.decode()
    assert ended.returncode == 0, told[-3000:]
    assert re.search(r'^# fail 0$', told, re.MULTILINE) and not re.search(r'^# pass 0$', told, re.MULTILINE)


@pytest.mark.always
def test_lengths() -> None:
    """Modules and functions that a reader takes in at one sitting, each module with a line that says what it is for."""
    long = {path.name: count for path in modules() if (count := len(path.read_text(encoding='utf-8').splitlines())) > MODULE_LINES}
    assert not long
    assert not [path.name for path in modules() if not path.read_text(encoding='utf-8').startswith('// ')]
    assert not [(name, first, count) for path in modules() for name, first, count in functions(path) if count > FUNCTION_LINES]


def functions(path: Path) -> Iterator[Tuple[str, str, int]]:
    """Each function and method, by its first line and its length: it ends where a line closes it as far left."""
    lines = path.read_text(encoding='utf-8').splitlines()
    for at, line in enumerate(lines):
        head = re.match(r'( *)(?:export )?(?:async )?(?:function\*? \w+|(?!if|for|while|switch)\w+)\(.*\{$', line)
        if head:
            rest = [later.startswith(f'{head[1]}}}') for later in lines[at:]]
            yield path.name, line.strip(), rest.index(True) + 1


@pytest.mark.always
def test_all_keys() -> None:
    """No key of the board in a terminal does nothing on the page, or something else."""
    own = words_of('KEYS', 'input.js')
    names = {'enter': 'Enter', 'backspace': 'Backspace', 'delete': 'Delete'}
    wanted = {names.get(key, key): OTHERWISE.get(action, action) for key, action in keys.ACTIONS.items() if key >= ' '}
    assert {key: own.get(key) for key in wanted} == wanted
    # The board's key for this goes up on the page.
    assert own['x'] == keys.TERMINAL[keys.KEEP]
    acted = words_of('ACTIONS', 'actions.js', r'^  (?:async )?(\w+)(?:\(|:)()')
    assert set(own.values()) <= set(acted)


def words_of(name: str, module: str, entry: str = r"(?:'([^']+)'|\b(\w+)): '(\w+)'") -> Dict[str, str]:
    """The entries of a table in a module."""
    text = (PAGE / module).read_text(encoding='utf-8')
    table = text[text.index(f'const {name} = {{') :].partition('\n};')[0]
    return {''.join(groups[:-1]): groups[-1] for groups in re.findall(entry, table, re.MULTILINE)}


@pytest.mark.always
def test_sentences_stand_together() -> None:
    """A sentence has a capital letter, some words, and an end. Faults of the page itself, which no player sees, stand where they are."""
    texts = ('texts.js', 'desk_texts.js', 'shared_texts.js', 'rules_texts.js', 'sheet_texts.js', 'sheet_tables.js')
    others = [path for path in modules() if path.name not in (*texts, 'module.js', 'worker.js', 'turns.js')]
    code = {path.name: re.sub(r'^\s*(//|/\*|\*).*$', '', path.read_text(encoding='utf-8'), flags=re.MULTILINE) for path in others}
    sentence = re.compile(r"['`][A-Z][^'`\n]* [^'`\n]* [^'`\n]*[.?!:]['`]")
    assert not [(name, text) for name, content in code.items() for text in sentence.findall(content)]
