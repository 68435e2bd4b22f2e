"""The lemmas and definitions that a file declares, each with its text and whether a line above says what it is."""

from __future__ import annotations

import re
from pathlib import Path
from typing import Iterator, List, NamedTuple, Set, Tuple

from building.listing import ROOT

#: The words that may stand before the name of a definition.
DEFINING = {'abbrev', 'unfoldable', 'record', 'data'}

#: The head of a declaration, with or without such words; that of a set of lemmas for the search; and a module for its parameters alone.
HEAD = re.compile(r'^((?:(?:pub|abbrev|unfoldable|record|data|opaque) )*)([^\s(){}:]+) (?::|\(|\{)')
RULES = re.compile(r'^((?:pub )?ruleset )(\S+) =')
PARAMETERS = re.compile(r'^ *module _ ')

#: The head of declarations that use each other, which are read as one part without a name.
MUTUAL = re.compile(r'^(?:abbrev )?mutual$')

#: The text that is no part of any declaration, and the text that tells of one: no heading of several.
BETWEEN = re.compile(r'^(?:pub )?(?:use|mod) |^ *--')
TELLS = re.compile(r'^ *-- (?!---)')

#: A proof that the prover asks for by this name is no lemma: an answer, an invariant, a measure.
ASKED = re.compile(r'^[^=]*: goal\.')

#: The characters that part the words of a text; a minus, a quote or an arrow can be within a name.
APART = re.compile(r'[\s(){}\[\],;.:`@]+')


class Declared(NamedTuple):
    """A lemma or a definition: where it is, its name, and the words that it uses."""

    path: Path
    line: int
    name: str
    is_definition: bool
    is_told: bool
    words: Set[str]

    @property
    def place(self) -> str:
        return f'{self.path.relative_to(ROOT)}:{self.line}'

    @property
    def crate(self) -> str:
        return self.path.relative_to(ROOT / 'crates').parts[0]


class Part(NamedTuple):
    """Some lines of a file: a declaration, or what uses words and is no lemma, as what is asked for by name."""

    declared: List[Declared]
    words: Set[str]


class Head(NamedTuple):
    """The head of a declaration, or of a module that has parameters alone, which has no name; with its lines as they are read."""

    line: int
    is_told: bool
    before: str
    name: str
    lines: List[str]


def words_of(text: str) -> Set[str]:
    """The words of a text, without its comments."""
    return {word for word in APART.split(re.sub(r'(?m)(?:^|\s)(?:--|//).*$', ' ', text)) if word}


def parts_of(path: Path, text: str) -> Iterator[Part]:
    """The parts of a file of `specs/` or `proofs/`."""
    for head in heads_of(text):
        body = '\n'.join(head.lines)
        words = words_of(body)
        if not head.name or ASKED.match(body):
            yield Part([], words)
        else:
            defines = bool(DEFINING & set(head.before.split())) or is_of_specs(path)
            yield Part([Declared(path, head.line, head.name, defines, head.is_told, words - {head.name})], words)


def is_of_specs(path: Path) -> bool:
    """Whether all that a file declares is meant for contracts. A file in a folder `Laws` proves laws of traits."""
    _, folder, *rest = path.relative_to(ROOT / 'crates').parts
    return folder == 'specs' and 'Laws' not in rest[:-1]


def heads_of(text: str) -> List[Head]:
    """Each declaration. A line above tells of all that stands below it without an empty line between."""
    found: List[Head] = []
    told, depth = False, 0
    for number, line in enumerate(text.splitlines(), 1):
        if not line.strip():
            told = False
            continue
        depth = min(depth, len(line) - len(line.lstrip()))
        if BETWEEN.match(line):
            told = told or bool(TELLS.match(line))
            continue
        module = PARAMETERS.match(line)
        is_nameless = bool(module or MUTUAL.match(line))
        before, name = ('', '') if is_nameless else declared_by(line[depth:])
        if is_nameless or (name and not (found and not before and name == found[-1].name)):
            found.append(Head(number, told, before, name, []))
        if found:
            found[-1].lines.append(line)
        if module:
            depth += 2
    return found


def declared_by(line: str) -> Tuple[str, str]:
    """The words before the name that a line declares, and the name; nothing where it declares none."""
    match = HEAD.match(line) or RULES.match(line)
    return (match[1], match[2]) if match else ('', '')
