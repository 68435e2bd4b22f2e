"""The command of the kit, and the line that tells one kit from another."""

from __future__ import annotations

import os
import re
import subprocess
from typing import Optional, Sequence


def command() -> Optional[str]:
    """The whole path of `rt`, or of the command that RT names; nothing where there is none."""
    named = os.environ.get('RT') or 'rt'
    folders = [''] if '/' in named else os.get_exec_path()
    paths = (os.path.abspath(os.path.join(folder, named)) for folder in folders)
    return next((path for path in paths if os.path.isfile(path) and os.access(path, os.X_OK)), None)


def kit_of(rt: str) -> str:
    """The line of the kit of a command: it is in a file of the kit, and a command that lies elsewhere is asked for it."""
    line = os.path.join(os.path.dirname(os.path.dirname(os.path.realpath(rt))), 'KIT-ID')
    if os.path.isfile(line):
        with open(line, encoding='utf-8', errors='replace') as file:
            return first_line(file.read())
    return first_line(answer(rt, 'version'))


def answer(*words: str) -> str:
    """The answer of a command; nothing where it isn't there."""
    return _said(words, subprocess.DEVNULL)


def knows(rt: str, word: str) -> bool:
    """Whether a command's help has a word. `rt` writes its help to standard error, with the status of a fault."""
    return word in re.findall(r'[^\s[\],]+', _said([rt, 'help'], subprocess.STDOUT))


def _said(words: Sequence[str], errors: int) -> str:
    try:
        return subprocess.run(words, stdin=subprocess.DEVNULL, stdout=subprocess.PIPE, stderr=errors, encoding='utf-8', errors='replace', check=False).stdout
    except OSError:
        return ''


def first_line(text: str) -> str:
    return text.strip().partition('\n')[0]
