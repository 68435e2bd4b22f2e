"""The kit's definitions behind the words that a list takes from it, down to what the prover itself knows. The kit has them as text, and isn't always there."""

from __future__ import annotations

import os
import re
from pathlib import Path
from typing import Dict, Iterable, Iterator, List, NamedTuple, Optional, Set

from building.kit import command
from trusting.contracts import TYPE
from trusting.definitions import blocks
from trusting.names import NAME, Source, Unknown, imports, operators, passed_on, words

#: The declaration of a line, with or without parameters: a definition, one case of it, or one of its fields.
DECLARES = re.compile(rf'^ *(?:(?:abbrev|unfoldable|record|data|opaque|pub) )*({NAME}|◌\S+◌)(?= [:{{(])')

#: The crates whose words the standard library passes on as its own.
BELOW_STD = ('std', 'core', 'std_alloc', 'std_collections', 'std_heap', 'std_io')

#: The folders of what isn't a crate's.
LIBRARIES = {'lib': 'logic/Lib', 'mir': 'logic/Mir', 'denote': 'logic/Denote', 'mathlib': 'antt/port/mathlib/src'}


class File(NamedTuple):
    """A file of definitions: the lines in which each name is declared, and what its words mean."""

    declared: Dict[str, str]
    names: Dict[str, Source]
    passed_on: Dict[str, Source]


def folder() -> Optional[Path]:
    """The folder with the kit's text; nothing where there is no kit."""
    rt = command()
    found = Path(os.path.realpath(rt)).parent.parent / 'rattle' if rt else None
    return found if found and (found / 'core').is_dir() else None


class Kit:
    """The kit's text, read as it is asked for."""

    def __init__(self, top: Path) -> None:
        self._top = top
        self._files: Dict[str, Optional[File]] = {}

    def behind(self, sources: Iterable[Source]) -> List[str]:
        """The definitions of these words, of those that they use, and so on, each once."""
        found: Dict[str, None] = {}
        met: Set[Source] = set()
        rest = sorted(sources)
        while rest:
            source = rest.pop()
            if source not in met:
                met.add(source)
                rest.extend(self._step(source, found))
        return list(found)

    def _step(self, source: Source, found: Dict[str, None]) -> List[Source]:
        """Adds the definition of a word, and gives the words that it uses. A word that is no crate's and has no text is the prover's own."""
        module, name = source
        if '.declared.' in module:
            found[self._type(module.split('.'))] = None
            return []
        for place in self._places(module):
            file = self._file(place)
            if file and name in file.declared:
                text = file.declared[name]
                found[text] = None
                used = [*words(text), *operators(text, file.names)]
                return [file.names.get(word, (place, word)) for word in used if word in file.names or word in file.declared]
            if file and name in file.passed_on:
                return [file.passed_on[name]]
        if module.startswith('Rattle.'):
            raise Unknown(f'the kit has no {name} of {module}')
        return []

    @staticmethod
    def _places(module: str) -> Iterator[str]:
        yield module
        if module.startswith('Rattle.std.'):
            yield from (module.replace('.std.', f'.{crate}.', 1) for crate in BELOW_STD[1:])

    def _file(self, module: str) -> Optional[File]:
        if module not in self._files:
            first, *rest = module.split('.')
            path = self._top.joinpath(LIBRARIES.get(first, ''), *rest).with_suffix('.antt')
            self._files[module] = read(path.read_text(encoding='utf-8')) if path.is_file() else None
        return self._files[module]

    def _type(self, path: List[str]) -> str:
        """A type that code declares, as the prover names it: crate, `specs`, `declared`, the file and the type."""
        inner = [word for word in path[4:] if not word.startswith('The')]
        for file in self._code(path[1], inner[:-1]):
            for match in TYPE.finditer(file.read_text(encoding='utf-8')):
                if match[2] == inner[-1]:
                    return match[0]
        raise Unknown(f'the kit has no type {".".join(path)}')

    def _code(self, crate: str, inner: List[str]) -> Iterator[Path]:
        """The files in which a type may be declared: the named one, those below it, and any other of the crates."""
        tops = [self._top.joinpath(place, 'src') for place in (BELOW_STD if crate == 'std' else (crate,))]
        for top in tops:
            file = top.joinpath(*inner).with_suffix('.rt')
            yield from (one for one in (file, *sorted(file.with_suffix('').glob('*.rt'))) if one.is_file())
        for top in tops:
            yield from sorted(top.rglob('*.rt'))



def read(text: str) -> File:
    """The definitions of a file: what stands between two empty lines is read together."""
    declared: Dict[str, str] = {}
    inner: Dict[str, str] = {}
    for _, block in blocks(text):
        kept = [line for line in block.splitlines() if not re.match(r' *(?:(?:unfoldable )?(?:pub )?(?:use|mod)|module) ', line)]
        found = [match[1] for match in map(DECLARES.match, kept) if match]
        if found:
            declared.setdefault(found[0], '\n'.join(kept))
            inner.update((name, '\n'.join(kept)) for name in found[1:] if name not in inner)
    return File({**inner, **declared}, imports(text), passed_on(text))


def lines_of(texts: Iterable[str]) -> int:
    """How many lines they have, comments with them."""
    return sum(1 for text in texts for line in text.splitlines() if line.strip())
