"""The account of the version: its number, the commit, whether the program is one that was proved, and where it is from."""

from __future__ import annotations

import os
import re
import subprocess
from typing import Optional

from playing import files

#: Where the package lies: the top of the repository, or the folder in which it is installed.
ABOVE = os.path.dirname(os.path.dirname(os.path.abspath(__file__)))


def about(program: Optional[str]) -> str:
    """Some lines of text; `program` is the path of the program that is played with."""
    noted = note()
    facts = dict(re.findall(r'^(version|commit|proved by|taken from) (.+)$', noted, re.MULTILINE))
    prover = facts.get('proved by')
    if program is None:
        proof = 'not built yet'
    elif prover and sum_of(program) in noted.split():
        proof = f'proved by {prover}\ntaken from {facts.get("taken from", "a place that is not known")}'
    else:
        proof = 'not known to be proved: the program is not one that was recorded'
    return f'puzzles {facts.get("version", "of no known version")}\ncommit {facts.get("commit", "unknown")}\n{proof}\n'


def note() -> str:
    """The account of the programs: in the repository a command gives it, and it lies beside the package where that is installed."""
    return told('note') or files.read(os.path.join(ABOVE, 'VERSION')).content.decode('utf-8', 'replace')


def told(what: str) -> str:
    """The account that the repository's command for its programs gives; nothing elsewhere."""
    command = os.path.join(ABOVE, 'tools', 'programs')
    if not os.path.isfile(command):
        return ''
    return subprocess.run([command, what], stdout=subprocess.PIPE, stderr=subprocess.DEVNULL, encoding='utf-8', check=False).stdout


def sum_of(program: str) -> str:
    # It takes long to be read, and is wanted here alone.
    import hashlib

    return hashlib.sha256(files.read(program).content).hexdigest()
