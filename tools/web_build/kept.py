"""The module and the page that lie in programs/web: they are stored there with their lines in programs/RECORD, and compared with others."""

from __future__ import annotations

import sys
from typing import List, TextIO

from building.kit import command, kit_of
from building.listing import TOP
from building.record import PAGE, put, sum_of_sources
from building.run import make
from gating.counts import compared
from web_build.module import binaryen, built
from web_build.page import packed, packed_in, page_of, unpacked
from web_build.scripts import Unfit

FOLDER = 'programs/web'
MODULE_FILE = f'{FOLDER}/puzzles.wasm'
PAGE_FILE = f'{FOLDER}/puzzles.html'

#: The crate whose function the page calls.
CRATE = 'web_turn'

#: The sources of the module, besides the crates.
SCRIPTS = [f'tools/web_build/{name}' for name in ('heap.c', 'module.py', 'retarget.py', 'sections.py')]

#: The command to type if those in the tree aren't of the sources that are here; and if a page is wanted, but no proof.
ADVICE = 'make web, and commit'
RUN = 'run make web, which proves and builds it: that needs the kit, and may take an hour'


def sources() -> str:
    """The sum over what the module is built from."""
    return sum_of_sources([CRATE], SCRIPTS)


def module_fault() -> str:
    """Why the module in the tree is not one of the sources that are here; nothing where it is."""
    if not PAGE.fact('page sources'):
        return f'{PAGE.record} says nothing of the page'
    if PAGE.fact('page sources') != sources():
        return f'{MODULE_FILE} is of other sources than those that are here'
    return PAGE.sum_fault('puzzles.wasm')


def page_fault() -> str:
    """Why the page in the tree is not the one that the record names, or not one of that module and of the sources that are here; nothing where it is."""
    return PAGE.sum_fault('puzzles.html') or made_fault()


def made_fault() -> str:
    """The second of both. The page is made anew, but for how the module is packed, since other versions of Zopfli do that otherwise."""
    try:
        found = read(PAGE_FILE)
        as_packed = packed_in(found)
        if unpacked(as_packed) != read(MODULE_FILE):
            return f'the module in {PAGE_FILE} is not {MODULE_FILE}'
    except OSError as error:
        return f'{error.filename}: {error.strerror}'
    return '' if page_of(as_packed, packed_in(found, 'later')) == found else f'{PAGE_FILE} is of other sources than those that are here'


def where() -> None:
    """Prints the path of the page of these sources, which is made where there is none. Raises Unfit, also where its module would have to be built."""
    wrong = module_fault()
    if wrong:
        raise Unfit(f'{wrong}: {RUN}')
    if page_fault():
        store(sys.stderr)
    print(f'{TOP}/{PAGE_FILE}')


def store(said: TextIO = sys.stdout) -> None:
    """Builds the module where that in the tree isn't of these sources, makes the page, and stores both with their lines. Raises Unfit."""
    makers, wrong = [PAGE.fact(name) for name in ('page kit', 'page binaryen', 'page sources')], module_fault()
    if wrong:
        print(f'{wrong}: it is proved and built', file=sys.stderr)
        if make():
            raise Unfit('the programs are not built, and so neither is the page')
        makers = makers_here()
        tell(put(f'{TOP}/{MODULE_FILE}', built_by(makers), 0o644), MODULE_FILE, said)
    if wrong or page_fault():
        module = packed_there() or packed(read(MODULE_FILE))
        tell(put(f'{TOP}/{PAGE_FILE}', page_of(module, later_there()), 0o644), PAGE_FILE, said)
    tell(PAGE.write(makers), PAGE.record, said)


def packed_there() -> str:
    """The module as the page has it that lies there; nothing where that has another one, or none."""
    try:
        text = packed_in(read(PAGE_FILE))
        return text if unpacked(text) == read(MODULE_FILE) else ''
    except (Unfit, OSError):
        return ''


def later_there() -> str:
    """The later scripts as the page has them that lies there; nothing where there are none."""
    try:
        return packed_in(read(PAGE_FILE), 'later')
    except OSError:
        return ''


def tell(is_new: bool, path: str, said: TextIO) -> None:
    if is_new:
        print(f'stored: {path}', file=said)


def makers_here() -> List[str]:
    """The record of a module that would be made here: the kit, Binaryen and the sources."""
    rt = command()
    return [kit_of(rt) if rt else '', binaryen(), sources()]


def built_by(makers: List[str]) -> bytes:
    """The module, built over the libraries that are there. Raises Unfit."""
    if not makers[1]:
        raise Unfit("there is no command wasm-opt: Debian's package binaryen has it")
    return built(CRATE)


def compare() -> int:
    """Builds the module anew, and compares. Says how many cases have passed, which are the record, the page and the module, and gives the status to end with."""
    faults = [f'{wrong}: {ADVICE}' for wrong in (module_fault(), page_fault()) if wrong]
    then, here = [PAGE.fact('page kit'), PAGE.fact('page binaryen')], makers_here()
    if then != here[:2]:
        print(f"{MODULE_FILE} was built by '{then[0]}' and '{then[1]}', and here are '{here[0]}' and '{here[1]}': so it isn't compared")
        return compared(2, faults)
    try:
        if built_by(here) != read(MODULE_FILE):
            faults.append(f'the module that was built is not {MODULE_FILE}: {ADVICE}')
    except (Unfit, OSError) as error:
        faults.append(f'the module: {error}')
    return compared(3, faults)


def read(path: str) -> bytes:
    with open(f'{TOP}/{path}', 'rb') as file:
        return file.read()
