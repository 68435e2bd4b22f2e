"""The files that are installed, and where: one list for `make install`, `make dist` and the package."""

from __future__ import annotations

import os
from typing import Iterator, List, Mapping, NamedTuple

from building.listing import ROOT
from building.record import LINKS, NAMES

#: The folder below `datadir` that is ours alone.
OURS = 'verified-puzzles'

#: The folders that the Makefile names, and that packagers set.
VARIABLES = ['gamesdir', 'datadir', 'mandir', 'docdir', 'bashcompdir', 'zshcompdir', 'fishcompdir']

#: The common part of the packages of the commands in Python.
COMMON = 'playing'

#: The commands in Python, and the packages that they start: each lies in the folder of its package.
FRONTS = {'puzzles-play': 'board', 'puzzles-page': 'page', 'puzzles-sheet': 'sheet', 'puzzles-check': 'check'}
SCRIPTS = {name: f'{package}/{name}' for name, package in FRONTS.items()}

COMMANDS = [*NAMES, *FRONTS]

#: Stands for the text that is told of the programs, where an item names its source.
NOTE = 'what is told of the programs'


class Item(NamedTuple):
    """A file of the repository, and what becomes of it: the variable of its folder, its path from there, and its mode; or, where it is
    a link, what it leads to from where it lies."""

    source: str
    variable: str
    path: str
    mode: int = 0o644
    link: str = ''


class Folders:
    """Where each folder lies, and `root`, below which all of them are put."""

    def __init__(self, root: str, places: Mapping[str, str]) -> None:
        """Raises ValueError where a folder is not named, or not by a whole path."""
        self.root = root.rstrip('/')
        self._places = {name: os.path.normpath(places.get(name) or '.') for name in VARIABLES}
        for name, place in {**self._places, 'DESTDIR': root or '/'}.items():
            if not place.startswith('/'):
                raise ValueError(f'{name} is no path that begins with /')

    def place(self, variable: str, path: str = '') -> str:
        """The path of a file once the root is the system's."""
        return os.path.join(self._places[variable], path) if path else self._places[variable]

    def now(self, place: str) -> str:
        """Where a place lies now."""
        return self.root + place

    def of(self, item: Item) -> str:
        return self.place(item.variable, item.path)


def items(folder: str) -> List[Item]:
    """All that is installed, with the programs of this folder. A manual page, a document or a module that is new in its folder needs no line here."""
    return [*programs(folder), *packages(), *page(), *documents(), *checkers(), *manual(), *completions()]


def programs(folder: str) -> Iterator[Item]:
    yield from (Item(f'{folder}/{name}', 'gamesdir', name, 0o755, LINKS.get(name, '')) for name in NAMES)
    yield from (Item(script, 'gamesdir', name, 0o755) for name, script in SCRIPTS.items())


def packages() -> Iterator[Item]:
    """The packages of Python, the stored puzzles, and what is told of the version."""
    yield Item(NOTE, 'datadir', f'{OURS}/VERSION')
    for package in (COMMON, *FRONTS.values()):
        for pattern in ('*.py', 'drawings/*.py', 'bank/*.txt'):
            for source in below(package, pattern):
                yield Item(f'{package}/{source}', 'datadir', f'{OURS}/{package}/{source}')


def page() -> Iterator[Item]:
    """The page, which is one file, and what has it and the board stand in the menu of a desktop."""
    yield Item('programs/web/puzzles.html', 'datadir', f'{OURS}/puzzles.html')
    yield Item('page/icon.svg', 'datadir', f'icons/hicolor/scalable/apps/{OURS}.svg')
    yield Item(f'desktop/{OURS}.metainfo.xml', 'datadir', f'metainfo/{OURS}.metainfo.xml')
    for source in below('desktop', '*.desktop'):
        yield Item(f'desktop/{source}', 'datadir', f'applications/{source}')


def checkers() -> Iterator[Item]:
    """The checkers of certificates, each of which needs no other file."""
    for source in below('certificate', 'verify.*'):
        yield Item(f'certificate/{source}', 'docdir', f'certificate/{source}')


def documents() -> Iterator[Item]:
    yield Item(NOTE, 'docdir', 'VERSION')
    for name in ('README.md', 'CHANGELOG.md', 'LICENSE'):
        yield Item(name, 'docdir', name)
    for pattern in ('*.md', '*.png', 'clients/*'):
        for source in below('docs', pattern):
            yield Item(f'docs/{source}', 'docdir', f'docs/{source}')


def manual() -> Iterator[Item]:
    """A page goes to the folder of its section, by which its name ends."""
    for source in below('man', '*.[1-9]'):
        yield Item(f'man/{source}', 'mandir', f'man{source[-1]}/{source}')


def completions() -> Iterator[Item]:
    """Each shell looks for a file by the name of the command; one file of zsh is for several."""
    for name in COMMANDS:
        yield Item('board/completion.bash', 'bashcompdir', name)
        yield Item('board/completion.fish', 'fishcompdir', f'{name}.fish')
    yield Item('board/completion.zsh', 'zshcompdir', '_puzzles')


def below(folder: str, pattern: str) -> List[str]:
    """The files below a folder of the repository that a pattern names, in order, from that folder."""
    top = ROOT / folder
    return sorted(str(path.relative_to(top)) for path in top.glob(pattern) if path.is_file())


def version() -> str:
    """The version, from the one place where it is written."""
    return (ROOT / 'VERSION').read_text(encoding='utf-8').strip()
