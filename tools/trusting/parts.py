"""The functions that docs/PROMISES.md names as those by which a promise is carried, those of single parts among them."""

from __future__ import annotations

import re
from typing import Iterator, List, NamedTuple, Set, Tuple

from building.listing import ROOT
from trusting.contracts import Function, Rust, crate_of
from trusting.definitions import Part, definitions
from trusting.names import Unknown

#: The document.
PAGE = ROOT / 'docs' / 'PROMISES.md'

#: Names, with a type or a crate before `::`.
NAME = re.compile(r'`([\w:]+)`')


class Row(NamedTuple):
    """A promise: the crates that the heading of its section names, and what carries it."""

    crates: Tuple[str, ...]
    carried: str


def parts(rust: Rust) -> Iterator[Function]:
    """All of them."""
    for row in rows():
        yield from named(row, rust)


def called(name: str, rust: Rust) -> List[Function]:
    """The functions that a name with its crate, type or trait means."""
    found = list(named(Row((), f'`{name}`'), rust))
    if not found:
        raise Unknown(f'no function is {name}')
    return found


def rows() -> Iterator[Row]:
    """The items of the document that are carried by something."""
    for section in re.split(r'^## ', PAGE.read_text(encoding='utf-8'), flags=re.MULTILINE):
        heading, _, text = section.partition('\n')
        for item in re.findall(r'^- (.*(?:\n +\S.*)*)', text, re.MULTILINE):
            _, carries, carried = re.sub(r'\s+', ' ', item).partition('arried by ')
            if carries:
                yield Row(tuple(name for name in NAME.findall(heading) if (ROOT / 'crates' / name).is_dir()), carried)


def named(row: Row, rust: Rust) -> Iterator[Function]:
    """The functions and laws that a row names: those of the name's type, trait or crate, or of the one before it, or of the row's crates. A type and a
    trait stand for their functions, and a trait for its ghosts. Words in parentheses name clauses."""
    owner = ''
    for name in NAME.findall(re.sub(r'\([^()]*\)', '', row.carried)):
        before, _, last = name.rpartition('::')
        owner = before or owner
        found = every(last, rust)
        here = [one for one in found if not row.crates or crate_of(one.path) in row.crates]
        yield from (one for one in meant(owner, last, rust) or here if one.has_clauses)


def meant(owner: str, name: str, rust: Rust) -> List[Function]:
    """The functions and laws of that name that a type, a trait or a crate has."""
    return [one for one in every(name, rust) if owner in one.owners or owner == crate_of(one.path)]


def every(name: str, rust: Rust) -> List[Function]:
    """All functions and laws of that name, or of the type or trait of that name."""
    return [*rust.functions.get(name, []), *rust.laws.get(name, [])] or of_owner(name, rust)


def clauses(row: Row, rust: Rust) -> Set[str]:
    """The names of the clauses of the functions that a row names, and of the fields of the records that it names."""
    found = {name for one in named(row, rust) for name in re.findall(r'^ *ensures (\w+) \{', one.meaning.part.text, re.MULTILINE)}
    for record in NAME.findall(row.carried):
        found.update(name for part in records(record) for name in re.findall(r'^  pub (\w+) :', part.text, re.MULTILINE))
    return found


def records(name: str) -> List[Part]:
    """The definitions of that name, of any crate."""
    if not re.fullmatch(r'[A-Z]\w+', name):
        return []
    files = [path for path in (ROOT / 'crates').glob('*/specs/**/*.antt') if f' {name} ' in path.read_text(encoding='utf-8') and 'Laws' not in path.parts]
    return [part for path in files for part in [definitions(path).get(name)] if part]


def of_owner(name: str, rust: Rust) -> List[Function]:
    """The parts for which a type or a trait stands."""
    laws = [law for found in rust.laws.values() for law in found if law.owners == (name,)]
    return [one for one in rust.owned.get(name, []) if one.is_public] + laws
