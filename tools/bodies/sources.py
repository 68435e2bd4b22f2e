"""Where the functions of a source stand, and what the prover calls them: by that an open goal is known as that of an edit, and the function can be asked for."""

from __future__ import annotations

import re
from pathlib import Path
from typing import List, NamedTuple, Optional, Sequence, Set

from bodies.edits import BadEdit, Edit, Texts, applied

#: The line of a function's name, in brackets the blanks before it and the name.
NAMED = re.compile(r'( *)(?:pub(?:\([^)]*\))? )?(?:const )?(?:extern "C" )?fn (\w+)')

#: Lines right above it that are its own: attributes and comments.
ABOVE = re.compile(r' *(?:#\[|//)')

#: The line that opens what a method stands in: a trait, or an impl, with its trait and the first argument of that, where there are any, and its type.
TRAIT = re.compile(r'(?:pub(?:\([^)]*\))? )?trait (?P<type>\w+)')
IMPL = re.compile(r'impl(?:<.*?>)? (?:(?:\w+::)*(?P<trait>\w+)(?:<(?P<of>\w+).*?>)? for )?(?:\w+::)*(?P<type>\w+)')


class Place(NamedTuple):
    """A function: its file, its name, its first line, with those right above it, its last, and by what the prover knows it: its path, or the end of that, or nothing
    where it can't be told."""

    file: str
    name: str
    first: int
    last: int
    path: str


def functions(crate: str, file: str, text: str) -> List[Place]:
    """The functions of a source that is laid out: each ends with the brace that is no further in than it, or else before the next one."""
    lines = text.split('\n')
    named = [(at, match) for at, match in enumerate(map(NAMED.match, lines)) if match]
    found: List[Place] = []
    for at, match in named:
        first = at
        while first > 0 and ABOVE.match(lines[first - 1]):
            first -= 1
        if found and found[-1].last > first:
            found[-1] = found[-1]._replace(last=first)
        closing = (last for last in range(at, len(lines)) if lines[last].startswith(match[1] + '}'))
        one_line = re.search(r'\{.*\} *$', lines[at])
        last = at if one_line else next(closing, len(lines) - 1)
        found.append(Place(file, match[2], first + 1, last + 1, path_of(crate, file, lines[:at], match[1], match[2])))
    return found


def path_of(crate: str, file: str, above: Sequence[str], blanks: str, name: str) -> str:
    """By what the prover knows the function of this name below these lines of a file, with so many blanks before it: its path, or the end of that, or nothing where it
    can't be told."""
    modules = [part for part in Path(file).with_suffix('').parts[1:] if part not in ('lib', 'main', 'mod')]
    if not blanks:
        return '::'.join([crate, *modules, name])
    opening = next((line for line in reversed(above) if line[:1].isalpha()), '')
    found = TRAIT.match(opening) or IMPL.match(opening)
    if not found or len(blanks) != 4:
        return ''
    words = found.groupdict('')
    type, trait, of = words['type'], words.get('trait', ''), words.get('of', '')
    if not trait and not is_declared(type, above):
        # It has the path of its type, which is declared in another file.
        return f'{type}::{name}'
    # A name of one letter is a parameter of the impl, and no part of its path.
    return '::'.join([crate, *modules, type + trait + (of if len(of) > 1 else ''), name])


def is_declared(type: str, lines: Sequence[str]) -> bool:
    """Whether a type is declared in these lines."""
    return any(re.match(rf'(?:pub(?:\([^)]*\))? )?(?:struct|enum|trait) {type}\b', line) for line in lines)


def place_at(crate: Path, file: str, line: int) -> Optional[Place]:
    """The function of a crate in which a line stands, or nothing. An edit changes no number of a line, since each text of it is within one."""
    try:
        text = (crate / file).read_text(encoding='utf-8')
    except OSError:
        return None
    return next((place for place in functions(crate.name, file, text) if place.first <= line <= place.last), None)


def places_of(edit: Edit, crate: Path) -> Set[Place]:
    """The functions of a crate in which an edit stands. Raises `BadEdit`, where a part of it stands in none, too."""
    texts: Texts = {}
    found: Set[Place] = set()
    for pair in edit.pairs:
        made = applied(Edit(edit.name, (pair,)), crate, texts)
        before = texts.get(pair.file) or (crate / pair.file).read_text(encoding='utf-8')
        place = place_at(crate, pair.file, before.count('\n', 0, before.find(pair.old)) + 1)
        if not place:
            raise BadEdit(f"its text 'old' stands in no function of {pair.file}")
        found.add(place)
        texts = made
    return found
