"""The programs in the tree: they are stored there, and compared with others."""

from __future__ import annotations

import sys
from typing import Callable, Iterator

from arm_build.program import MADE, build, makers
from building.kit import command, kit_of
from building.listing import sum_of
from building.record import AMD, ARM, BUILT, LINKS, NAMES, Files, sum_of_sources
from building.run import make
from gating.counts import compared
from web_build.scripts import Unfit

#: The command to type if the programs in the tree aren't those of the sources.
ADVICE = 'make programs, and commit'


def store() -> int:
    """Proves and builds, and stores the programs for PCs and for ARM with their record in the tree, as far as they aren't there yet. Gives the status to end with."""
    try:
        made_by = makers()
        status = make()
        if status != 0:
            return status
        fault = BUILT.fault(sum_of_sources())
        if fault:
            raise Unfit(fault)
        build()
    except Unfit as unfit:
        print(f'nothing is stored: {unfit}', file=sys.stderr)
        return 1
    for tree, made in (AMD, BUILT), (ARM, MADE):
        for name in NAMES:
            if tree.take(made, name):
                print(f'stored: {tree.folder}/{name}')
    if any([AMD.write([BUILT.fact('kit'), BUILT.fact('sources')]), ARM.write([made_by])]):
        print(f'stored: {AMD.record}')
    return 0


def compare(built: str) -> int:
    """Compares a program that was built from nothing with that in the tree. Gives the status to end with."""
    rt = command()
    return as_in_tree(AMD, 'kit', kit_of(rt) if rt else 'none', lambda: built)


def compare_arm() -> int:
    """The same for ARM, for which the program is built."""
    try:
        return as_in_tree(ARM, 'arm makers', makers(), build)
    except Unfit as unfit:
        return as_in_tree(ARM, 'arm makers', str(unfit), build)


def as_in_tree(tree: Files, makers: str, here: str, build: Callable[[], str]) -> int:
    """Says how many cases have passed, which are the record, the program and its other names, and gives the status to end with."""
    fault = tree.fault(sum_of_sources())
    faults = [f'{fault}: {ADVICE}'] if fault else []
    if tree.lines() and tree.fact(makers) != here:
        print(f"the programs in {tree.folder} were built by '{tree.fact(makers)}', and the kit here is '{here}': so nothing is compared")
        return compared(1, faults)
    sums = tree.sums()
    others = (f'{tree.folder}/{name} is not {program}: {ADVICE}' for name, program in LINKS.items() if sums.get(name) != sums.get(program))
    return compared(1 + len(NAMES), [*faults, *difference(tree, build), *others])


def difference(tree: Files, build: Callable[[], str]) -> Iterator[str]:
    """How a program differs from that in the tree, with both sums; nothing where they are the same bytes."""
    try:
        built = build()
        found, kept = sum_of(built), sum_of(tree.path(NAMES[0]))
        if found != kept:
            yield f'{built} is {found}, and {tree.folder}/{NAMES[0]} is {kept}: {ADVICE}'
    except OSError as error:
        yield f'{error.filename}: {error.strerror}: {ADVICE}'
    except Unfit as unfit:
        yield f'{tree.folder}: {unfit}'
