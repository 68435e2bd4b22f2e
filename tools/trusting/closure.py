"""All that a reader has to read of some contracts: what they cite, and what that cites, to the kit's own words. A word that means nothing is a fault."""

from __future__ import annotations

import re
from pathlib import Path
from typing import Dict, FrozenSet, Iterable, List, Mapping, Optional, Sequence, Set, Tuple

from trusting.contracts import Function, Rust
from trusting.definitions import OWN, Meaning, Part, Specs
from trusting.names import NAME, Source, Unknown, operators, strange, words

#: The traits behind which the system can stand, so that what their functions keep is trusted there. The promises of any other trait's functions are owed by types
#: of this repository, and proved of them: nobody need read it.
DEVICES = frozenset({'Source', 'Sink', 'Words', 'GameFiles', 'Folder'})


class Closure:
    """The words that were reached, and where they lead. Those in `left` aren't followed: the contracts say the same whatever they are."""

    def __init__(self, rust: Rust, left: FrozenSet[str] = frozenset()) -> None:
        self.parts: Dict[Part, None] = {}
        self.kit: Set[Source] = set()
        self.uses: Dict[Path, Dict[Path, None]] = {}
        self.was_left: Set[str] = set()
        self._left = left
        self._specs = Specs()
        self._rust = rust
        self._members: Set[str] = set()
        self._traits: Set[str] = set()

    def read(self, functions: Iterable[Function]) -> List[Part]:
        """Reaches the contracts of these functions with all that they cite, and gives the contracts."""
        found: Dict[Part, None] = {}
        for one in functions:
            found[one.meaning.part] = None
            self._visit(one.meaning)
            for owner in one.owners:
                self._named(one.meaning.part, owner)
        self._follow_traits()
        return list(found)

    def _visit(self, meaning: Meaning) -> None:
        part = meaning.part
        if part in self.parts:
            return
        self.parts[part] = None
        used = words(part.text)
        members = {word[1:] for word in used if word.startswith('.')}
        self._members |= members
        for word in sorted(members | words(meaning.head)):
            self._reach_trait(word)
        for word in [*sorted(used & meaning.names.keys()), *operators(part.text, meaning.names)]:
            self._cite(part, meaning.names[word])
        for word in sorted(strange(part.text, is_code(part)) - meaning.names.keys()):
            self._other(meaning, word)

    def _other(self, meaning: Meaning, word: str) -> None:
        """A word that isn't imported for contracts: a whole module, a ghost of the trait in which it stands, or what code may name."""
        part = meaning.part
        if word in meaning.modules:
            for name in re.findall(rf'\b{word}\.({NAME})', part.text):
                self._cite(part, (meaning.modules[word], name))
        elif meaning.trait and word in self._rust.traits[meaning.trait].ghosts:
            self._members.add(word)
            self._reach_trait(meaning.trait)
        elif not (is_code(part) and self._named(part, word)):
            raise Unknown(f'{part.place}: {part.name} has {word}, and nothing says what that is')

    def _named(self, by: Part, word: str) -> bool:
        """A type, a trait or a constant that code names; false where it is none of them, nor of another crate."""
        found = self._rust.type_in(by.path, word)
        constant = self._rust.constant(by.path, word)
        for meaning in [*found, *([constant] if constant else [])]:
            self._reach(by, meaning)
        self._reach_trait(word)
        return bool(found or constant or word in self._rust.traits or is_of_another(by.path, word))

    def _reach(self, by: Part, meaning: Meaning) -> None:
        name = meaning.part.name.partition(' ')[0]
        if name in self._left:
            self.was_left.add(name)
            return
        if meaning.part.path != by.path:
            self.uses.setdefault(by.path, {})[meaning.part.path] = None
        self._visit(meaning)

    def _cite(self, by: Part, source: Source) -> None:
        module, name = source
        path = module.split('.')
        if path[0] != 'Rattle' or path[1] not in OWN:
            self.kit.add(source)
            return
        if path[-1] in self._rust.traits and name == 'Ghosts':
            self._reach_trait(path[-1])
            return
        found = self._declared(path, name) if path[2:4] == ['specs', 'declared'] else [self._specs.of(source)]
        for meaning in found or [None]:
            if not meaning:
                raise Unknown(f'{by.place}: {by.name} has {name} of {module}, which has no such name')
            self._reach(by, meaning)

    def _declared(self, path: List[str], name: str) -> Sequence[Optional[Meaning]]:
        """A word that the prover makes of code: a constant, a type, the cases of one (`TheVariants`), or its fields (`TheInside`)."""
        crate, owner = path[1], path[-2] if path[-1] in ('TheVariants', 'TheInside') else path[-1]
        if owner == 'TheConstants':
            return [self._rust.constants.get((crate, name))]
        return self._rust.type_of(crate, owner)

    def _reach_trait(self, name: str) -> None:
        if name in self._traits or name not in self._rust.traits:
            return
        self._traits.add(name)
        for above in self._rust.traits[name].above:
            self._reach_trait(above)
        if name in DEVICES:
            for meaning in self._rust.traits[name].functions:
                self._visit(meaning)

    def _follow_traits(self) -> None:
        """Reaches the ghosts of traits that something names, and what the games make of them, until there are no more."""
        before = -1
        while before != len(self.parts):
            before = len(self.parts)
            known = [self._rust.traits[trait].ghosts for trait in sorted(self._traits)]
            for meaning in [one for ghosts in known for ghost in sorted(ghosts.keys() & self._members) for one in ghosts[ghost]]:
                self._of_trait(meaning)

    def _of_trait(self, meaning: Meaning) -> None:
        """Reaches a ghost of a trait, or what a type makes of it, with what contracts see of that type. A proof of a law isn't read."""
        if is_proof(meaning):
            return
        self._visit(meaning)
        _, _, name = meaning.part.name.partition(' of ')
        if name and not re.fullmatch('[A-Z]', name):
            self._named(meaning.part, name)


def is_proof(meaning: Meaning) -> bool:
    """Whether it is what a type gives for a law of its trait: lemmas, which the prover has looked at."""
    used = words(meaning.part.text)
    cited = [meaning.names[word][0] for word in used & meaning.names.keys()] + [meaning.modules[word] for word in used & meaning.modules.keys()]
    return any('Laws' in module.split('.') or module.split('.')[2:3] == ['proofs'] for module in cited)


def is_code(part: Part) -> bool:
    """Whether it stands in code, and not in a file of definitions."""
    return part.path.suffix == '.rt'


def is_of_another(path: Path, word: str) -> bool:
    """Whether code has a name from a crate that isn't of this repository."""
    used = re.search(rf'^(?:pub )?use (\w+)::[^;]*\b{word}\b', path.read_text(encoding='utf-8'), re.MULTILINE)
    return used is not None and used[1] not in OWN | {'crate', 'super'}


def in_reading_order(parts: Iterable[Part], uses: Mapping[Path, Iterable[Path]]) -> List[Tuple[Path, List[Part]]]:
    """The files, each after those that it uses, and what has to be read of each."""
    by_file: Dict[Path, List[Part]] = {}
    for part in parts:
        by_file.setdefault(part.path, []).append(part)
    order: Dict[Path, None] = {}
    met: Set[Path] = set()

    def put(path: Path) -> None:
        if path not in met:
            met.add(path)
            for used in sorted(uses.get(path, ())):
                put(used)
            order[path] = None

    for path in sorted(by_file, key=lambda path: (path.suffix == '.rt', path)):
        put(path)
    return [(path, sorted(by_file[path], key=lambda part: part.line)) for path in order if path in by_file]
