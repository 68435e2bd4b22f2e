"""The programs and the page, with the records of what they are: by which kit they were proved and built, of which sources, and their sums.

A record is a text that `sha256sum --check` reads, too:

    # kit: the line of `rt version`
    # sources: the sum over what a build reads
    ..the sum of a program..  its name, from the folder of the record

That of the tree has such lines for the programs for ARM, too, with `# arm makers: ` for their kit and a sum over what they are linked with, and for the page, with
`# page kit: `, `# page binaryen: ` (the line of `wasm-opt --version`) and `# page sources: ` (the sum over what the module is built from).

Lines tell the files that a build reads: one of crates.txt for each crate that the programs stand on, as `NAME: LIBRARIES`, and one for each file of their
src/, specs/ and proofs/ that ends in .rt or .antt, as `sha256sum` writes it for its path from the top; each in order. The sum of the sources is that of these lines.
So it goes by names and texts, and not by dates, modes, owners or what git knows.
"""

from __future__ import annotations

import os
import sys
from hashlib import sha256
from typing import Dict, Iterable, Iterator, List, Optional, Sequence

from building.listing import TOP, all_of, files_of, listed, sum_of

#: The crate of the program, and the names of the program: all are the same bytes.
CRATE = 'puzzles'
NAMES = ['puzzles', 'puzzles-json']

#: Those that are another name, and the first. `rt ci` takes no link in a checkout, so in the tree, where git keeps their bytes once, and in
#: build/ each is a file; where they are packed or installed they are links.
LINKS = {name: NAMES[0] for name in NAMES[1:]}

HEAD = "# What the programs are: 'make programs' writes this text, and 'make build' the one in build/. sha256sum --check reads it."


class Files:
    """Files of a folder, and what a record says of them: facts by name, and their sums. Folder and record are paths from the top."""

    def __init__(self, folder: str, record: str, facts: Sequence[str], names: Sequence[str] = tuple(NAMES), what: str = 'program') -> None:
        self.folder = folder
        self.record = record
        self._facts, self._names, self._what = facts, names, what

    def path(self, name: str) -> str:
        """The whole path of a file."""
        return f'{TOP}/{self.folder}/{name}'

    def take(self, other: Files, name: str) -> bool:
        """Takes a program from another folder, where it isn't here already. Says whether it wasn't."""
        with open(other.path(name), 'rb') as file:
            return put(self.path(name), file.read(), 0o755)

    def lines(self) -> List[str]:
        """The lines of the record, of other files, too; none where there is no record."""
        try:
            with open(f'{TOP}/{self.record}', encoding='utf-8', errors='replace') as file:
                return file.read().splitlines()
        except OSError:
            return []

    def fact(self, name: str) -> str:
        """The record's value by this name; nothing where it doesn't."""
        return next((line.partition(': ')[2] for line in self.lines() if line.startswith(f'# {name}: ')), '')

    def sums(self) -> Dict[str, str]:
        """The sums of these files that the record says."""
        said = dict(line.split('  ', 1)[::-1] for line in self.lines() if '  ' in line and not line.startswith('#'))
        return {name: said.get(self._named(name), '') for name in self._names}

    def _named(self, name: str) -> str:
        """The path of a file from the folder of the record."""
        return os.path.relpath(f'{self.folder}/{name}', os.path.dirname(self.record))

    def own_lines(self) -> List[str]:
        """The lines of the record that are of these files."""
        heads, names = tuple(f'# {name}: ' for name in self._facts), [self._named(name) for name in self._names]
        return [line for line in self.lines() if line.startswith(heads) or line.partition('  ')[2] in names]

    def write(self, facts: Sequence[str]) -> bool:
        """Writes these facts, in the order of their names, and the sums of the files into the record, where they aren't there already. Says whether they weren't."""
        own = [f'# {name}: {fact}' for name, fact in zip(self._facts, facts)]
        own += [f'{sum_of(self.path(name))}  {self._named(name)}' for name in self._names]
        all_lines = [own if files is self else files.own_lines() for files in RECORDED if files.record == self.record]
        return put(f'{TOP}/{self.record}', ''.join(f'{line}\n' for line in [HEAD, *sum(all_lines, [])]).encode(), 0o644)

    def forget(self) -> None:
        """Takes the record away."""
        if os.path.exists(f'{TOP}/{self.record}'):
            os.unlink(f'{TOP}/{self.record}')

    def fault(self, sources: str) -> str:
        """Why these are not programs of the sources with this sum, those of the record, and ready to run; nothing where they are."""
        if not self.lines():
            return f'there is no {self.record}'
        if self.fact('sources') != sources:
            return f'the programs in {self.folder} are of other sources than those that are here'
        not_to_run = (f'{self.folder}/{name} may not be run' for name in self._names if not os.access(self.path(name), os.X_OK))
        return self.sum_fault(*self._names) or next(not_to_run, '')

    def sum_fault(self, *names: str) -> str:
        """Which of these files isn't the one that the record names; nothing where all are."""
        said = self.sums()
        others = (name for name in names if not os.path.isfile(self.path(name)) or sum_of(self.path(name)) != said[name])
        return next((f'{self.folder}/{name} is not the {self._what} that {self.record} names' for name in others), '')


#: The programs that git keeps, by the machines that run them, as `uname -sm` names these; and those that were proved and built here.
AMD = Files('programs/linux-amd64', 'programs/RECORD', ['kit', 'sources'])
ARM = Files('programs/linux-arm64', 'programs/RECORD', ['arm makers'])
TREES = {'Linux x86_64': AMD, 'Linux aarch64': ARM}
BUILT = Files('build', 'build/RECORD', ['kit', 'sources'])

#: The page and its module, which git keeps, too.
PAGE = Files('programs/web', 'programs/RECORD', ['page kit', 'page binaryen', 'page sources'], ['puzzles.html', 'puzzles.wasm'], 'file')

#: All of which a record says something, in its order.
RECORDED = [AMD, ARM, PAGE, BUILT]

#: This machine, or the one that PUZZLES_MACHINE names. Below a kernel of 64 bits all else may have 32, as this Python then has, and `getconf LONG_BIT` says.
MACHINE = os.environ.get('PUZZLES_MACHINE') or f'{os.uname().sysname} {os.uname().machine}{"" if sys.maxsize >> 32 else " of 32 bits"}'

#: Those of this machine; and why it has none, in whose place stand others then.
TREE = TREES.get(MACHINE, AMD)
STRANGE = '' if MACHINE in TREES else f'no program here is for {MACHINE}: the page, programs/web/puzzles.html, plays in any browser'


def sum_of_sources(tops: Optional[Iterable[str]] = None, besides: Iterable[str] = ()) -> str:
    """The sum over what a build of these crates reads, or of that of the programs, and over other files besides, by their paths from the top."""
    lines = [*lines_of_sources(tops or [CRATE]), *(f'{sum_of(f"{TOP}/{path}")}  {path}\n' for path in besides)]
    return sha256(''.join(lines).encode('utf-8', 'surrogateescape')).hexdigest()


def lines_of_sources(tops: Iterable[str]) -> Iterator[str]:
    crates = listed()
    names = sorted(all_of(tops, crates))
    yield from (f'{name}: {" ".join(crates[name])}\n' for name in names)
    for name in names:
        yield from (f'{sum_of(f"{TOP}/{path}")}  {path}\n' for path in files_of(name))


def put(path: str, content: bytes, mode: int) -> bool:
    """Gives a file this content and mode, where it hasn't them yet. Says whether it hadn't. A program that has the old file open keeps it."""
    try:
        with open(path, 'rb') as file:
            if file.read() == content and os.fstat(file.fileno()).st_mode & 0o111 == mode & 0o111:
                return False
    except OSError:
        pass
    os.makedirs(os.path.dirname(path), exist_ok=True)
    with open(f'{path}.new', 'wb') as file:
        os.fchmod(file.fileno(), mode)
        file.write(content)
    os.replace(f'{path}.new', path)
    return True


def put_link(path: str, leads_to: str) -> bool:
    """Makes a link that leads there, where it isn't one already. Says whether it wasn't. A program that has an old file open keeps it."""
    if leads(path, leads_to):
        return False
    os.makedirs(os.path.dirname(path), exist_ok=True)
    if os.path.lexists(f'{path}.new'):
        os.unlink(f'{path}.new')
    os.symlink(leads_to, f'{path}.new')
    os.replace(f'{path}.new', path)
    return True


def leads(path: str, leads_to: str) -> bool:
    """Whether there is a link that leads there."""
    return os.path.islink(path) and os.readlink(path) == leads_to
