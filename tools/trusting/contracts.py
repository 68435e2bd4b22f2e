"""The code without its bodies: the contract of a function, the types that contracts see, and what traits and their impls say in ghosts."""

from __future__ import annotations

import re
from pathlib import Path
from typing import Dict, Iterator, List, NamedTuple, Optional, Tuple

from building.listing import ROOT
from trusting.definitions import Meaning, Part
from trusting.names import imports, modules

#: Crates whose impls are for tests, measurements and examples alone.
FOR_TESTS = re.compile(r'tests$|^trial_runs$|^client$')

#: The code that may name an item of a file.
SEEN = r'(?:pub(?:\(\w+\))? )?'

#: An item of a file, from its attributes and comments to its end.
TYPE = re.compile(rf'^((?: *(?://|#\[).*\n)*){SEEN}(?:(?:struct|enum) (\w+)[^;{{]*(?:;|\{{(?:.*\n)*?\}}\n)|type (\w+)\b.*;)', re.MULTILINE)
CONSTANT = re.compile(rf'^((?:///.*\n)*){SEEN}const (\w+): [^;]*;', re.MULTILINE)
#: A function up to its body. Without clauses that begins on the same line, and a trait's may have none: after it comes an empty line, or the trait ends.
PLAIN = r'(?:(?!\b(?:requires|ensures)\b|;\n|\n *\{\n).)*?(?= \{\n)'
FUNCTION = re.compile(
    rf'^( *){SEEN}(?:final )?(?:extern "C" )?fn (\w+)\b(?:{PLAIN}|.*?(?:;\n(?=[\n}}])|(?=^\1\{{[\n}}])))', re.MULTILINE | re.DOTALL
)
GHOST = re.compile(r'((?:^    //[^\n]*\n)*)^    ghost (\w+)(?:: | = )(\{.*?\});\n', re.MULTILINE | re.DOTALL)
BLOCK = re.compile(rf'^{SEEN}(?:impl|trait)\b[^{{]*\{{\n(?:.*\n)*?\}}\n', re.MULTILINE)

#: The heads of blocks: a type that contracts see as a value, what a type makes of a trait, and a trait with those that it needs.
MODEL = re.compile(r'impl(?:<.*?>)? Model for (\w+)')
SHOWN = re.compile(r'impl(?:<.*?>)? (\w+)(?:<.*>)? for (\w+)')
TRAIT = re.compile(rf'{SEEN}trait (\w+)(?:<[^>]*>)?:?(.*)', re.DOTALL)

#: A contract's view of a type with fields of its own: as which value it is seen, how that comes from the fields, and what holds of them.
OF_MODEL = ('Value', 'view', 'invariant')


class Code(NamedTuple):
    """A file of code."""

    path: Path
    text: str

    @property
    def crate(self) -> str:
        """The crate that it is of."""
        return crate_of(self.path)

    def part(self, name: str, start: int, text: str, trait: str = '') -> Meaning:
        """A part of it, with what the file and its own block import; and the trait in whose block it is, where it is a trait's."""
        lines = text.strip('\n')
        at = self.text.count('\n', 0, start) + 1 + (len(text) - len(text.lstrip('\n')))
        here = next((match[0] for match in BLOCK.finditer(self.text) if match.start() <= start < match.end()), '')
        seen = BLOCK.sub('', self.text) + here
        return Meaning(Part(self.path, at, name, lines), imports(seen), modules(seen), trait, here.partition('{')[0])


def crate_of(path: Path) -> str:
    """The crate that a file is of."""
    return path.relative_to(ROOT / 'crates').parts[0]


def files() -> Iterator[Code]:
    """The code of the crates that aren't for tests."""
    for crate in sorted((ROOT / 'crates').iterdir()):
        if not FOR_TESTS.search(crate.name):
            for path in sorted(crate.glob('src/**/*.rt')):
                yield Code(path, path.read_text(encoding='utf-8'))


class Trait:
    """A trait: those that it needs, its ghosts, each with its impls, and the contracts of its functions."""

    def __init__(self) -> None:
        self.above: List[str] = []
        self.ghosts: Dict[str, List[Meaning]] = {}
        self.functions: List[Meaning] = []


class Function(NamedTuple):
    """A function with a contract, or a law of a trait: the file, the type or the trait in whose block it is, or nothing, and what it says."""

    path: Path
    owners: Tuple[str, ...]
    meaning: Meaning

    @property
    def is_public(self) -> bool:
        """Whether other crates or a trait's callers can call it."""
        return len(self.owners) != 1 or self.meaning.part.text.lstrip().startswith('pub ')

    @property
    def has_clauses(self) -> bool:
        """Whether its contract says anything."""
        return bool(re.search(r'^ *(?:requires|ensures|ghost)\b', self.meaning.part.text, re.MULTILINE))


class Rust:
    """The types, constants, traits, functions and laws of the crates."""

    def __init__(self) -> None:
        self._types: Dict[Tuple[str, str], List[Meaning]] = {}
        self.constants: Dict[Tuple[str, str], Meaning] = {}
        self.traits: Dict[str, Trait] = {}
        self.functions: Dict[str, List[Function]] = {}
        self.laws: Dict[str, List[Function]] = {}
        self.owned: Dict[str, List[Function]] = {}
        code = list(files())
        for one in code:
            self._items(one)
        for one in code:
            self._blocks(one)
            self._functions(one)

    def type_of(self, crate: str, name: str) -> List[Meaning]:
        """A type of a crate, with the value as which contracts see it; nothing where there is none."""
        return self._types.get((crate, name), [])

    def constant(self, path: Path, name: str) -> Optional[Meaning]:
        """The constant that a file means by a name."""
        return self.constants.get((self._home(path, name), name))

    def type_in(self, path: Path, name: str) -> List[Meaning]:
        """The type that a file means by a name: that of the crate from which the file has the name, or of its own."""
        return self.type_of(self._home(path, name), name)

    def _home(self, path: Path, name: str) -> str:
        """The crate that declares what a file means by a name."""
        used = re.search(rf'^(?:pub )?use (\w+)::[^;]*\b{name}\b', path.read_text(encoding='utf-8'), re.MULTILINE)
        if not used or used[1] in ('crate', 'super'):
            return crate_of(path)
        crate = used[1]
        head = ROOT / 'crates' / crate / 'src' / 'lib.rt'
        is_there = (crate, name) in self._types or (crate, name) in self.constants or not head.is_file()
        return crate if is_there else self._home(head, name)

    def _items(self, code: Code) -> None:
        for match in TYPE.finditer(code.text):
            name = match[2] or match[3]
            self._types.setdefault((code.crate, name), []).append(code.part(name, match.start(), match[0]))
        for match in CONSTANT.finditer(code.text):
            self.constants[code.crate, match[2]] = code.part(match[2], match.start(), match[0])

    def _blocks(self, code: Code) -> None:
        for match in BLOCK.finditer(code.text):
            head = match[0].partition('{')[0]
            model, shown, trait = MODEL.match(head), SHOWN.match(head), TRAIT.match(head)
            if model:
                self._model(code, model[1], match)
            elif trait:
                self._trait(code, trait[1], re.findall(r'\w+', trait[2]), match)
            elif shown:
                for ghost in GHOST.finditer(match[0]):
                    meaning = code.part(f'{shown[1]}.{ghost[2]} of {shown[2]}', match.start() + ghost.start(), ghost[0])
                    self._known(shown[1]).ghosts.setdefault(ghost[2], []).append(meaning)

    def _model(self, code: Code, name: str, block: re.Match[str]) -> None:
        """A type that contracts see as a value of its own, which the type's private fields give."""
        told = [ghost for ghost in GHOST.finditer(block[0]) if ghost[2] in OF_MODEL]
        text = '\n'.join(ghost[0].rstrip('\n') for ghost in told)
        self._types[code.crate, name].append(code.part(f'{name} is seen as', block.start() + told[0].start(), text))

    def _trait(self, code: Code, name: str, above: List[str], block: re.Match[str]) -> None:
        known = self._known(name)
        known.above.extend(above)
        for ghost in GHOST.finditer(block[0]):
            meaning = code.part(f'{name}.{ghost[2]}', block.start() + ghost.start(), ghost[0], name)
            known.ghosts.setdefault(ghost[2], []).insert(0, meaning)
            if block[0].startswith('pub trait'):
                self.laws.setdefault(ghost[2], []).append(Function(code.path, (name,), meaning))

    def _known(self, trait: str) -> Trait:
        return self.traits.setdefault(trait, Trait())

    def _functions(self, code: Code) -> None:
        """The functions of a file, with the types and traits in whose blocks they are."""
        spans = [(match.start(), match.end(), match[0].partition('{')[0]) for match in BLOCK.finditer(code.text)]
        for match in FUNCTION.finditer(code.text):
            head = next((head for start, end, head in spans if start <= match.start() < end), '')
            trait = TRAIT.match(head)
            names = re.sub(r'^impl(<.*?>)? ', '', head) if head.startswith('impl') else ''
            owners = tuple(re.findall(r'(?:^|for )(\w+)', names)) if names else (trait[1],) if trait else ()
            name = f'{owners[-1]}::{match[2]}' if owners else match[2]
            meaning = code.part(name, match.start(), match[0], trait[1] if trait else '')
            function = Function(code.path, owners, meaning)
            self.functions.setdefault(match[2], []).append(function)
            for owner in owners:
                self.owned.setdefault(owner, []).append(function)
            if trait:
                self.traits[trait[1]].functions.append(meaning)
