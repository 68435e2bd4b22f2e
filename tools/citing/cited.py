"""The declared words that something uses, and from how many files: code, `specs/`, `proofs/` and documents."""

from __future__ import annotations

import re
from collections import defaultdict
from pathlib import Path
from typing import Dict, Iterable, List, NamedTuple, Set, Tuple

from building.listing import ROOT, own
from citing.declared import Declared, parts_of, words_of
from trusting.names import imports

#: The last name of a module, and a name in it.
Name = Tuple[str, str]

#: A module that gets another name, or none: what it has is named after that.
WHOLE = re.compile(r'^\s*(?:ghost |pub )*use (Rattle\.[\w.]+)(?: as \w+)?;?$', re.MULTILINE)

#: A lemma that the search is told of beside a function.
TACTIC = re.compile(r'(?:proofs|specs)::([\w:]+)::([\w→-]+)')

#: A name in a document that is written as in code.
NAMED = re.compile(r'`([^`\n]+)`')

DOCUMENTS = ('*.md', 'docs/*.md')


class File(NamedTuple):
    """A file: what it declares, the words that it uses without that, and what its words mean."""

    path: Path
    declared: List[Declared]
    #: The words outside of its lemmas and definitions: in code, in documents, in what the prover asks for by name.
    words: Set[str]
    #: A word: the last name of a module, and the name there.
    means: Dict[str, Name]
    #: The modules that are named as a whole.
    modules: Set[str]
    #: The words that are used by their path, as the pair above.
    paths: Set[Name]


def files_of(crates: Iterable[str]) -> List[File]:
    """All files that can use something."""
    found = [read_proofs(path) for crate in crates for folder in ('specs', 'proofs') for path in sorted((own(crate) / folder).rglob('*.antt'))]
    found += [read_code(path) for crate in crates for path in sorted((own(crate) / 'src').rglob('*.rt'))]
    return found + [read_document(path) for names in DOCUMENTS for path in sorted(ROOT.glob(names))]


def read_proofs(path: Path) -> File:
    text = path.read_text(encoding='utf-8')
    parts = list(parts_of(path, text))
    asked = {word for part in parts if not part.declared for word in part.words}
    return File(path, [one for part in parts for one in part.declared], asked, *meanings(text), set())


def read_code(path: Path) -> File:
    text = path.read_text(encoding='utf-8')
    without_imports = re.sub(r'ghost use [^;]*;', '', text)
    paths = {(module.split('::')[-1], name) for module, name in TACTIC.findall(text)}
    return File(path, [], words_of(without_imports), *meanings(text), paths)


def read_document(path: Path) -> File:
    words = {word for name in NAMED.findall(path.read_text(encoding='utf-8')) for word in words_of(name)}
    return File(path, [], words, {}, set(), set())


def meanings(text: str) -> Tuple[Dict[str, Name], Set[str]]:
    """The meanings of the words of a text, and the modules that it names as a whole."""
    means = {word: (module.split('.')[-1], name) for word, (module, name) in imports(text).items()}
    return means, {module.split('.')[-1] for module in WHOLE.findall(text)}


class Cited:
    """The declarations of some files, with the files that use each."""

    def __init__(self, files: List[File]) -> None:
        self.declared = [one for file in files for one in file.declared]
        self._files = files
        self._homes = {id(one): file for file in files for one in file.declared}
        self._named: Dict[Name, List[Declared]] = defaultdict(list)
        for one in self.declared:
            self._named[one.path.stem, one.name].append(one)
        self._by: Dict[int, Set[Path]] = defaultdict(set)
        self._follow()

    def is_unused(self, one: Declared) -> bool:
        return not self._by[id(one)]

    def is_shared(self, one: Declared) -> bool:
        """Whether more than one file uses it. Documents name clauses by the same words, so they don't count."""
        return sum(path.suffix != '.md' for path in self._by[id(one)]) > 1

    def _follow(self) -> None:
        """Begins with what the code, the documents and the answers use, and goes on with what that uses."""
        rest: List[Tuple[File, Declared]] = []
        for file in self._files:
            self._use(file, file.words, rest)
            for name in file.paths:
                self._reach(file, self._named[name], rest)
        while rest:
            file, one = rest.pop()
            self._use(file, one.words, rest)

    def _use(self, file: File, words: Set[str], rest: List[Tuple[File, Declared]]) -> None:
        for word in words:
            self._reach(file, self._meant(file, word), rest)

    def _meant(self, file: File, word: str) -> List[Declared]:
        if file.path.suffix == '.md':
            return [one for (_, name), those in self._named.items() if name == word for one in those]
        for written in (word, f'◌{word}◌'):
            if written in file.means:
                return self._named.get(file.means[written], [])
        here = [one for one in self._named.get((file.path.stem, word), []) if one.path == file.path]
        return here or [one for module in file.modules for one in self._named.get((module, word), [])]

    def _reach(self, file: File, those: List[Declared], rest: List[Tuple[File, Declared]]) -> None:
        for one in those:
            if not self._by[id(one)]:
                rest.append((self._homes[id(one)], one))
            self._by[id(one)].add(file.path)
