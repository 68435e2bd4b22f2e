"""The texts that have to be read to believe each promise: the numbers in docs/PROMISES.md, docs/TRUST.md and README, and the list of one promise, with its text."""

from __future__ import annotations

import re
from pathlib import Path
from typing import Dict, Iterable, Iterator, List, Optional, Set

from building.listing import ROOT
from trusting import bare
from trusting.around import around
from trusting.closure import Closure, in_reading_order
from trusting.contracts import Function, Rust
from trusting.definitions import Part
from trusting.kit import Kit, folder, lines_of
from trusting.names import Source
from trusting.parts import PAGE, called, parts
from trusting.promises import LINES, PROMISES, Promise, functions_of, promise

README, TRUST = ROOT / 'README.md', ROOT / 'docs' / 'TRUST.md'

#: Where README tells a number: that of this promise.
COUNT = re.compile(r'\*\*[\d,]+ lines\*\*')
TOLD = ('solve', 'program', 'together')

#: The texts to read of the parts that no sentence of README speaks of.
PARTS = 'parts'


class Listed:
    """The texts to read of some contracts, in reading order."""

    def __init__(self, closures: Iterable[Closure]) -> None:
        self.parts: Dict[Part, None] = {}
        self.kit: Set[Source] = set()
        self.left: Set[str] = set()
        uses: Dict[Path, Dict[Path, None]] = {}
        for one in closures:
            self.parts.update(one.parts)
            self.kit |= one.kit
            self.left |= one.was_left
            for path, used in one.uses.items():
                uses.setdefault(path, {}).update(used)
        self.left -= {part.name for part in self.parts}
        self.files = in_reading_order(self.parts, uses)
        self.lines = sum(part.lines for part in self.parts)

    def of_kit(self) -> Optional[List[str]]:
        """The definitions of the kit behind it; nothing where there is no kit."""
        top = folder()
        return Kit(top).behind(self.kit) if top else None

    def text(self) -> Iterator[str]:
        """The list itself: each file, and all that is to be read of it, with the line where it stands."""
        for _, found in self.files:
            for part in found:
                yield f'== {part.place}' + (f'  {part.name}' if ' ' in part.name else '')
                yield part.text
                yield ''
        behind = self.of_kit()
        beside = f', with {lines_of(behind):,} lines behind them' if behind is not None else ''
        names = sorted({name for _, name in self.kit})
        yield f'{self.lines:,} lines in {len(self.files)} files; they use {len(names)} words of the kit{beside}: {", ".join(names)}'
        if self.left:
            yield f'Not followed, since this holds whatever they mean: {", ".join(sorted(self.left))}'


def listed(name: str, rust: Optional[Rust] = None) -> Listed:
    """The texts to read of a promise, by its name, of all that docs/PROMISES.md names, or of one function with its crate."""
    known = rust or Rust()
    if name == PARTS:
        return Listed([reached(parts(known), known)])
    if '::' in name:
        return Listed([reached(called(name, known), known)])
    one = promise(name)
    if one.made_of:
        return Listed([reached_of(promise(other), known) for other in one.made_of])
    return Listed([reached_of(one, known)])


def reached_of(one: Promise, rust: Rust) -> Closure:
    return reached(functions_of(one, rust), rust, one.left)


def reached(functions: Iterable[Function], rust: Rust, left: Iterable[str] = ()) -> Closure:
    """All that there is to read of some functions."""
    closure = Closure(rust, frozenset(left))
    closure.read(functions)
    return closure


def all_listed() -> Dict[str, Listed]:
    """The same of each promise."""
    rust = Rust()
    return {one.name: listed(one.name, rust) for one in PROMISES}


def pages(made: Dict[str, Listed]) -> Dict[Path, str]:
    """The three pages, as they have to be. Without a kit the lines of the kit are those that the first has."""
    page, trust, readme = (path.read_text(encoding='utf-8') for path in (PAGE, TRUST, README))
    promises, counts = iter(PROMISES), iter(TOLD)
    if len(COUNT.findall(readme)) != len(TOLD):
        raise ValueError(f'README.md has to say "**N lines**" of {", ".join(TOLD)}, each on one line, and of nothing else')
    return {
        PAGE: LINES.sub(lambda _: lines(next(promises), made), page),
        TRUST: bare.TOLD.sub(bare.told(Rust()), trust),
        README: around(COUNT.sub(lambda _: f'**{made[next(counts)].lines:,} lines**', readme)),
    }


def lines(one: Promise, made: Dict[str, Listed]) -> str:
    """How many lines there are to read of a promise, and of the kit."""
    behind = made[one.name].of_kit()
    beside = f'{lines_of(behind):,}' if behind is not None else one.of_kit
    return f'{made[one.name].lines:,} lines and {beside}'


def outdated(made: Dict[str, Listed]) -> List[str]:
    """The pages that aren't as they have to be."""
    return [path.relative_to(ROOT).as_posix() for path, text in pages(made).items() if path.read_text(encoding='utf-8') != text]
