"""Games as transcripts, files for people to read: what is done, beside what is seen then.

`= NAME` begins a case, in a room of its own, and `$ WORDS` a run in it. `> ACT  → SEEN` is what is done there, with what comes of it, and `! COMMAND` what a
shell does in the room. The text seen may also stand on the lines below. `# ` begins what is said to the reader.
"""

import re
from pathlib import Path
from typing import Any, Iterator, List, NamedTuple

import pytest


class Line(NamedTuple):
    """`$`, `>` or `!`, what stands behind it, and each line of what is seen then."""

    kind: str
    does: str
    seen: List[str]


def transcripts(folder: Path) -> Iterator[Any]:
    """A case of pytest for each, with its lines."""
    for path in sorted(folder.glob('*.txt')):
        for text in path.read_text(encoding='utf-8').split('\n= ')[1:]:
            name, *lines = text.rstrip('\n').split('\n')
            yield pytest.param(played(lines), id=f'{path.stem}: {name}')


def played(lines: List[str]) -> List[Line]:
    made: List[Line] = []
    for line in lines:
        found = re.fullmatch(r'([$>!])(?: (.*?))??(?: +→ (.*))?', line)
        if found:
            made.append(Line(found[1], found[2] or '', [found[3]] if found[3] else []))
        elif not line.startswith('# '):
            made[-1].seen.append(line)
    return made
