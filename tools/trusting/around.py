"""How much Python and JavaScript stands around the programs: README tells that it isn't proved, and how many lines it is."""

from __future__ import annotations

import re
from pathlib import Path
from typing import Iterator

from building.listing import ROOT

#: The folders of what a player runs besides the programs.
FOLDERS = ('board', 'check', 'page', 'playing', 'sheet')

#: Where README tells how many lines: in round numbers, so that a small change leaves it.
LINES = re.compile(r'\b([\d,]+) lines of Python and\s+JavaScript')
ROUND = 500


def around(readme: str) -> str:
    """README with the number, where it is too far off."""
    lines = sum(sum(1 for line in path.read_text(encoding='utf-8').splitlines() if line.strip()) for path in scripts())

    def right(told: re.Match[str]) -> str:
        is_near = abs(int(told[1].replace(',', '')) - lines) <= ROUND
        return told[0] if is_near else told[0].replace(told[1], f'{round(lines, -3) if lines % ROUND else lines:,}')

    return LINES.sub(right, readme)


def scripts() -> Iterator[Path]:
    """The files: modules, and commands without an ending."""
    for folder in FOLDERS:
        for path in sorted((ROOT / folder).rglob('*')):
            if path.suffix in ('.py', '.js') or (path.is_file() and not path.suffix and path.read_bytes().startswith(b'#!/usr/bin/env -S python3')):
                yield path
