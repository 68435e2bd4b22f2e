"""The declarations of the sources."""

import re
from typing import Dict, List, Set

from bodies.edits import bodies_in
from tests.texts.parts import ROOT, found, read

#: The words that declare a name, by the ending of a file, with the name in brackets: items, members and clauses, and the words of texts.
DECLARATIONS = {
    '.rt': [
        r'\b(?:fn|struct|enum|trait|type|const|static|mod|ensures|requires|ghost) (\w+)',
        r'^    (?:pub(?:\(crate\))? )?(\w+)(?:: |,$|\(| \{)',
        r'"(\w+)"',
    ],
    '.antt': [r'^ *(?:[a-z]+ )*([\w-]+) (?:: |[({])', r'codes "(\w+)'],
}


def crates() -> List[str]:
    return sorted(path.name for path in (ROOT / 'crates').iterdir())


def files() -> Set[str]:
    """The path from the top of each file and folder of the repository."""
    inside = (path.relative_to(ROOT) for path in ROOT.rglob('*'))
    return {str(path) for path in inside if path.parts[0] not in {'.git', 'build'} and 'out' not in path.parts}


def declared(crate: str) -> Set[str]:
    """The names that a crate declares, with its wrong bodies and the words of its texts."""
    names = {body.name for body in bodies_in(ROOT / 'crates' / crate)}
    for folder in ('src', 'specs', 'proofs'):
        for path in (ROOT / 'crates' / crate / folder).rglob('*.*'):
            text = path.read_text(encoding='utf-8')
            names.update([path.stem], *(found(pattern, text) for pattern in DECLARATIONS.get(path.suffix, [])))
    return names


def specs(crate: str, files: str) -> str:
    """Files of definitions of a crate, one after the other."""
    paths = sorted((ROOT / 'crates' / crate / 'specs').rglob(files))
    return '\n'.join(path.read_text(encoding='utf-8') for path in paths)


def commands() -> List[str]:
    """The words by which the lines of commands begin, by the definitions."""
    return found(r'codes "([a-z]+) ?"', specs('line_replies', 'Commands.antt'))


def faults() -> Dict[str, Dict[str, str]]:
    """The names of each type of fault by their numbers, by the definitions."""
    text = '\n'.join(specs(crate, '*.antt') for crate in crates())
    numbers = {(kind, cause): number for kind, cause, number in re.findall(r'^(\w+)_number (.+) = (\d+)$', text, re.M)}
    types: Dict[str, Dict[str, str]] = {}
    for kind, cause, name in re.findall(r'^(\w+)_name (.+) = codes "(\w+)"$', text, re.M):
        if (kind, cause) in numbers:
            types.setdefault(kind.title().replace('_', ''), {})[numbers[kind, cause]] = name
    return types


def make_names() -> Set[str]:
    """The targets and the variables of `make`."""
    makefile = read('Makefile')
    return set(' '.join(found(r'^\.PHONY: (.*)$', makefile)).split() + found(r'^(\w+) \?=', makefile) + found(r'\$\((\w+)\)', makefile))
