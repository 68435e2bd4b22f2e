"""Drawings by hand, as people make them, with what a careful reader sees: rows.txt.

`== NAME` begins a row, and the lines below it are the text. Each line `-- ` says what is read, in order: its line, and then
`towers 5:FIELDS` or `unequal 5` with further items (`3@0,2` a number at column 0, row 2, counted from 0; `1,0>0,0` a sign), and `note` if something could have
been lost; `id ID`; or `no: ` and how the reason begins, with `:COLUMN` after the line if it names one.
"""

import re
from pathlib import Path
from typing import Iterator, List, NamedTuple

from playing import drawings


class Row(NamedTuple):
    name: str
    text: str
    told: List[str]


def rows() -> Iterator[Row]:
    content = (Path(__file__).parent / 'rows.txt').read_text(encoding='utf-8')
    for part in content.split('== ')[1:]:
        name, *lines = part.rstrip('\n').split('\n')
        text = [line for line in lines if not line.startswith('-- ')]
        yield Row(name, '\n'.join(text).replace('→', '\t').replace('␀', '\0').replace('⇐', '\u200f') + '\n', [line[3:] for line in lines if line.startswith('-- ')])


def fields_of(text: str) -> List[str]:
    """The clues of an ID of Towers as items."""
    size, fields = int(text[0]), text[2:].split('/')
    edge = [*((x, -1) for x in range(size)), *((x, size) for x in range(size)), *((-1, y) for y in range(size)), *((size, y) for y in range(size))]
    return [f'item {x},{y},{field}' for (x, y), field in zip(edge, fields) if field]


def wanted(told: str) -> str:
    """The content of a row, as `as_told` has it."""
    line, kind, *others = told.split(' ')
    if kind not in ('towers', 'unequal'):
        return told
    items = fields_of(others[0]) if ':' in others[0] else []
    for word in others[1:]:
        if '@' in word:
            number, place = word.split('@')
            items.append(f'item {place},{number}')
        elif '>' in word:
            items.append(f"item {','.join(word.split('>'))},1")
    return ' '.join([line, kind, others[0][0], *sorted(items), *(['note'] if 'note' in others else [])])


def as_told(read: drawings.Read) -> str:
    if read.puzzle:
        return ' '.join([str(read.line), read.puzzle.game, str(read.puzzle.size), *sorted(read.puzzle.items), *(['note'] if read.doubt else [])])
    return f'{read.line} id {read.id}' if read.id else f'{read.line}{f":{read.column}" if read.column else ""} no: {read.why}'


def fits(told: str, read: drawings.Read) -> bool:
    return as_told(read).startswith(wanted(told)) if re.match(r'\S+ no: ', told) else as_told(read) == wanted(told)


ROWS = list(rows())
