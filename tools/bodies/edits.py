"""Edits of a crate's sources: wrong bodies, and their twins, which mean the same as the right body."""

from __future__ import annotations

import re
from collections import Counter
from pathlib import Path
from typing import Dict, Iterable, Iterator, List, NamedTuple, Tuple

#: The text of each file of a crate that is edited, by its path in the crate.
Texts = Dict[str, str]

#: Where the wrong bodies of a crate stand: those that `rt ci` tries in files of a folder, and all others in one file.
MUST_FAIL, WRONG_BODIES = 'must-fail', 'wrong-bodies.edits'

#: How a wrong body begins there: its name; the functions in which it stands, and `gate` if the gate tries it; and what it does, if its name doesn't say all
#: of that. Lines that go on with this are further in. Its edit follows.
HEAD = re.compile(r'(\w+) \((\w+(?:, \w+)*)\)(?:: .*(?:\n  .*)*)?\n')


class Pair(NamedTuple):
    """A text that stands once in a file, and what takes its place."""

    file: str
    old: str
    new: str


class Edit(NamedTuple):
    """An edit by its name."""

    name: str
    pairs: Tuple[Pair, ...]


class Body(NamedTuple):
    """A wrong body and its twin, both by its name, and why its text can't be read so, or nothing; the functions in which its first line says that it stands,
    whether the gate tries it, and whether `rt ci` does."""

    name: str
    wrong: Edit
    twin: Edit
    fault: str
    functions: Tuple[str, ...] = ()
    is_in_gate: bool = False
    is_must_fail: bool = False


class BadEdit(Exception):
    """An edit can't be applied. Its text says why."""


def read_edit(name: str, edit: str) -> Body:
    """The parts of an edit. Its twin is the text after `# twin:` right below each line `new:`; one that is lacking has no pair."""
    file, old, fault, above = '', '', '', ''
    wrong: List[Pair] = []
    twin: List[Pair] = []
    for line in edit.split('\n'):
        key, _, text = line.partition(':')
        text = text[1:] if text.startswith(' ') else text
        if key == 'file':
            file = text.strip()
        elif key == 'old':
            old = text
        elif key == 'new':
            wrong.append(Pair(file, old, text))
        elif key == '# twin' and above == 'new':
            twin.append(Pair(file, old, text))
        elif line.strip():
            fault = f'nothing reads its line {line!r} there'
        above = key
    if twin and len(twin) < len(wrong):
        fault = "a line '# twin:' is lacking below a line 'new:'"
    return Body(name, Edit(name, tuple(wrong)), Edit(name, tuple(twin)), fault)


def read_list(text: str) -> Iterator[Body]:
    """The wrong bodies of a crate's file. Each is a paragraph; one that begins with `#` is a remark."""
    for paragraph in re.split('\n{2,}', text.strip('\n')):
        head = HEAD.match(paragraph)
        if head:
            words = head[2].split(', ')
            body = read_edit(head[1], paragraph[head.end() :])
            yield body._replace(functions=tuple(word for word in words if word != 'gate'), is_in_gate='gate' in words)
        elif paragraph and not paragraph.startswith('#'):
            line = paragraph.partition('\n')[0]
            yield read_edit(line, '')._replace(fault="a wrong body begins with 'NAME (FUNCTION): ..' and its edit below")


def bodies_in(crate: Path) -> List[Body]:
    """The wrong bodies of a crate, by name."""
    file = crate / WRONG_BODIES
    found = list(read_list(file.read_text(encoding='utf-8'))) if file.is_file() else []
    for path in (crate / MUST_FAIL).glob('*.edit'):
        found.append(read_edit(path.stem, path.read_text(encoding='utf-8'))._replace(is_in_gate=True, is_must_fail=True))
    counts = Counter(body.name for body in found)
    return sorted(body if counts[body.name] == 1 else body._replace(fault='another one has its name') for body in found)


def applied(edit: Edit, crate: Path, texts: Texts) -> Texts:
    """The texts with an edit applied. A file that isn't among them yet is the crate's. Raises `BadEdit`."""
    made = dict(texts)
    for pair in edit.pairs:
        if pair.file not in made:
            try:
                made[pair.file] = (crate / pair.file).read_text(encoding='utf-8')
            except OSError as error:
                raise BadEdit(f'there is no file {pair.file}') from error
        count = made[pair.file].count(pair.old)
        if count != 1:
            raise BadEdit(f"its text 'old' is in {pair.file} {count} times, and not once")
        made[pair.file] = made[pair.file].replace(pair.old, pair.new)
    return made


def all_applied(edits: Iterable[Edit], crate: Path) -> Texts:
    """The texts with some edits applied, one after the other. Raises `BadEdit`."""
    texts: Texts = {}
    for edit in edits:
        texts = applied(edit, crate, texts)
    return texts
