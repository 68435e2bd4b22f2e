"""All Python passes mypy and pylint, and all shell shellcheck. `rt ci` says whether all Rattle is laid out."""

import os
import subprocess
import sys
from pathlib import Path
from typing import List, Sequence

from tests.harness import TOP, need

SETTINGS = TOP / 'tests' / 'code'

#: The folders with Python and shell. certificate/ is to be read without knowing types, and tests/certificates tries it.
FOLDERS = ['.ci', 'bench', 'board', 'check', 'docs', 'page', 'playing', 'sheet', 'tests', 'tools']


def scripts(*commands: str) -> List[str]:
    """The paths of the files whose first line names one of these commands, from the top."""
    found: List[str] = []
    for folder in FOLDERS:
        for path in sorted((TOP / folder).rglob('*')):
            if path.is_file() and path.suffix != '.py' and first_line(path).rpartition('/')[2].split()[-1:] in [[word] for word in commands]:
                found.append(str(path.relative_to(TOP)))
    return found


def first_line(path: Path) -> str:
    """The command after `#!` in the first line, without options."""
    with open(path, 'rb') as file:
        line = file.readline().decode(errors='replace')
    return ' '.join(word for word in line[2:].split() if not word.startswith('-')) if line.startswith('#!') else ''


def modules() -> List[str]:
    return sorted(str(path.relative_to(TOP)) for folder in FOLDERS for path in (TOP / folder).rglob('*.py'))


def said(words: Sequence[str]) -> str:
    """The complaints of a command."""
    need(words[0])
    path = os.pathsep.join(str(TOP / folder) for folder in ('', 'tools', 'bench'))
    env = {**os.environ, 'MYPYPATH': path, 'PYTHONPATH': path, 'PYTHONDONTWRITEBYTECODE': '1'}
    ended = subprocess.run(words, cwd=TOP, env=env, stdout=subprocess.PIPE, stderr=subprocess.STDOUT, encoding='utf-8', errors='replace', check=False)
    return ended.stdout if ended.returncode else ''


def test_mypy() -> None:
    """Modules at once, and then the scripts, one by one, since each is a main program."""
    words = ['mypy', '--strict', '--explicit-package-bases', '--no-error-summary', '--python-executable', sys.executable]
    words += ['--config-file', str(SETTINGS / 'mypy.ini'), '--cache-dir', os.devnull, '--scripts-are-modules']
    assert said([*words, *modules(), *scripts('python3')]) == ''


def test_pylint() -> None:
    """The scripts by themselves, since the fronts of two packages begin alike."""
    words = ['pylint', f'--rcfile={SETTINGS / "pylintrc"}', '--score=n']
    assert said([*words, *modules()]) + said([*words, '--disable=duplicate-code', *scripts('python3')]) == ''


def test_shellcheck() -> None:
    assert said(['shellcheck', '-x', *scripts('bash', 'sh'), 'board/completion.bash']) == ''
