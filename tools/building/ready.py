"""Finds the programs that were built of the sources here: those in the tree, or those in build/."""

from __future__ import annotations

import sys

from building.record import BUILT, STRANGE, TREE, Files, sum_of_sources
from building.run import make

#: The command to type if there are none.
ADVICE = 'run make, which proves and builds them: that needs the kit, and may take an hour'


class NotReady(Exception):
    """There are no programs of the sources that are here. The text says why."""


def where() -> int:
    """Prints the folder of the programs. If those in the tree are of other sources, it says so, proves and builds. Gives the status to end with."""
    if STRANGE:
        print(STRANGE, file=sys.stderr)
        return 1
    fault = TREE.fault(sum_of_sources())
    if not fault:
        print(TREE.folder)
        return 0
    print(f'{fault}: they are proved and built', file=sys.stderr)
    status = make()
    if status == 0:
        print(BUILT.folder)
    return status


def tell() -> int:
    """Prints the folder of the programs that are ready, or says why there are none. Gives the status to end with."""
    try:
        print(ready().folder)
        return 0
    except NotReady as error:
        print(error, file=sys.stderr)
        return 1


def ready() -> Files:
    """The programs that are there, where nothing is built for it."""
    if STRANGE:
        raise NotReady(STRANGE)
    sources = sum_of_sources()
    in_tree = TREE.fault(sources)
    if not in_tree:
        return TREE
    fault = BUILT.fault(sources) if BUILT.lines() else in_tree
    if fault:
        raise NotReady(f'{fault}: {ADVICE}')
    return BUILT
