"""Means by which cases could be tried that can't be tried here, and how they are told at the end of a run."""

import re
import shutil
from collections import Counter
from pathlib import Path
from typing import Any, Iterable, Iterator, List

from tests.harness.room import Skip

#: A package a line: its name, and the commands that it gives.
PACKAGES = Path(__file__).resolve().parent.parent / 'packages.txt'

#: How a case is tried that wants other users, or mounts.
AS_ROOT = 'be root, or install uidmap and have numbers of your own in /etc/subuid and /etc/subgid, where users may make namespaces'


def need(command: str) -> None:
    """Skips the case where there is no such command."""
    if not shutil.which(command):
        raise Skip(f'there is no {command}')


def packages_of(command: str) -> List[str]:
    """The packages of the tests' list that give a command."""
    lines = (line.split() for line in PACKAGES.read_text(encoding='utf-8').splitlines())
    return [line[0] for line in lines if len(line) > 1 and line[0] != '#' and command in line[1].split('|')]


def told(reports: Iterable[Any]) -> Iterator[str]:
    """A line for each reason in the reports of skipped cases, those of most cases first."""
    for reason, count in Counter(map(reason_of, reports)).most_common():
        yield f'{count:6}  {reason}'


def reason_of(report: Any) -> str:
    """Of a path, a line, and the kind of the exception with its text, which pytest has noted, the text; with the package of a command that is lacking."""
    text = report.longrepr[2] if isinstance(report.longrepr, tuple) else str(report.longrepr)
    reason = re.sub(r'^[\w.]*Skip(ped)?: ', '', text)
    lacking = re.fullmatch(r'there is no ([\w.-]+)', reason)
    packages = packages_of(lacking[1]) if lacking else []
    return f'{reason}. To try it: apt-get install {packages[0]}' if packages else reason
