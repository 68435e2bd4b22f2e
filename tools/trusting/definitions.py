"""The definitions in the `specs/` of the crates: what stands in each file, and what its names mean."""

from __future__ import annotations

import re
from pathlib import Path
from typing import Dict, Iterator, List, NamedTuple, Optional, Tuple

from building.listing import ROOT
from trusting.names import NAME, Source, imports, modules, passed_on

#: The head of a definition: a name, or an operator with the places of what it stands between.
HEAD = re.compile(rf'^(?:(?:abbrev|unfoldable|record|data|pub) )*({NAME}|◌\S+◌)')


class Part(NamedTuple):
    """Some lines of a file that are read together: a definition, a type, a constant, a clause."""

    path: Path
    line: int
    name: str
    text: str

    @property
    def lines(self) -> int:
        """How many lines there are to read, comments with them."""
        return sum(1 for line in self.text.splitlines() if line.strip())

    @property
    def place(self) -> str:
        """Where it stands, as documents name it."""
        return f'{self.path.relative_to(ROOT).as_posix()}:{self.line}'


class Meaning(NamedTuple):
    """A part, and what its words may mean: names, whole modules, and of a trait's clauses that trait, whose ghosts stand there without a point. The head of
    its block may name traits, whose ghosts it may have too."""

    part: Part
    names: Dict[str, Source]
    modules: Dict[str, str]
    trait: str = ''
    head: str = ''


def blocks(text: str) -> Iterator[Tuple[int, str]]:
    """The parts of a text, each with the number of its first line: those between empty lines, with what stands further right below."""
    first = 0
    lines: List[str] = []
    is_apart = False
    for number, line in enumerate(text.splitlines(), 1):
        if not line.strip():
            is_apart = True
            continue
        if lines and is_apart and not line.startswith(' '):
            yield first, '\n'.join(lines)
            lines = []
        first, lines, is_apart = first if lines else number, lines + [line], False
    if lines:
        yield first, '\n'.join(lines)


def definitions(path: Path) -> Dict[str, Part]:
    """The definitions in a file, by name; one by cases (`data`) also by the names of these, and those that name each other (`mutual`) as one."""
    found: Dict[str, Part] = {}
    for line, block in blocks(path.read_text(encoding='utf-8')):
        kept = [text for text in block.splitlines() if not re.match(r'(pub )?(use|mod) ', text)]
        heads = [text for text in kept if not text.startswith(('--', 'infix'))]
        match = HEAD.match(heads[0]) if heads else None
        if heads and not match:
            raise ValueError(f'{path}: line {line} begins no definition')
        if match:
            part = Part(path, line + len(block.splitlines()) - len(kept), match[1], '\n'.join(kept))
            if match[1] == 'mutual':
                part = part._replace(text='\n'.join(text[2:] if text.startswith('  ') else text for text in kept))
                found.update((name, part) for name in re.findall(rf'^(?:pub )?({NAME}) :', part.text, re.MULTILINE))
                continue
            found[match[1]] = part
            if ' data ' in f' {heads[0]} ':
                found.update((case, part) for text in heads[1:] for case in re.findall(rf'^ +({NAME}) :', text))
    return found


class File(NamedTuple):
    """The words that a file of `specs/` declares, and those that it passes on from others."""

    meanings: Dict[str, Meaning]
    passed_on: Dict[str, Source]


class Specs:
    """All files of `specs/`, read as they are asked for."""

    def __init__(self) -> None:
        self._files: Dict[str, Optional[File]] = {}

    def of(self, source: Source) -> Optional[Meaning]:
        """The definition that a name of a file means, or nothing where there is none."""
        module, name = source
        if module not in self._files:
            self._files[module] = self._read(module)
        file = self._files[module]
        if not file:
            return None
        return file.meanings.get(name) or (self.of(file.passed_on[name]) if name in file.passed_on else None)

    @staticmethod
    def _read(module: str) -> Optional[File]:
        _, crate, *rest = module.split('.')
        path = (ROOT / 'crates' / crate).joinpath(*rest).with_suffix('.antt')
        if not path.is_file():
            contents = path.with_name('Lib.antt')
            given_on = modules(contents.read_text(encoding='utf-8')).get(path.stem) if contents.is_file() else None
            return Specs._read(given_on) if given_on else None
        text = path.read_text(encoding='utf-8')
        here = definitions(path)
        names = {name: (module, name) for name in here}
        names.update(imports(text))
        whole = modules(text)
        return File({name: Meaning(part, names, whole) for name, part in here.items()}, passed_on(text))


#: The crates of this repository.
OWN = frozenset(path.name for path in (ROOT / 'crates').iterdir())
