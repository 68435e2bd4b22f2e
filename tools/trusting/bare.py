"""The functions that have no contract, neither their own nor a trait's: of these the prover has checked only that they are safe and end."""

from __future__ import annotations

import re
from typing import Dict, Iterator, List

from trusting.contracts import Function, Rust, crate_of

#: Where docs/TRUST.md tells how many these are, and of how many.
TOLD = re.compile(r'\*\*[\d,]+ of [\d,]+ functions\*\*')


def bare(rust: Rust) -> Dict[str, List[Function]]:
    """Those of each crate. A function of `impl Trait for Type` has its trait's contract."""
    found: Dict[str, List[Function]] = {}
    for one in every(rust):
        if not one.has_clauses and len(one.owners) < 2:
            found.setdefault(crate_of(one.path), []).append(one)
    return found


def every(rust: Rust) -> Iterator[Function]:
    return (one for functions in rust.functions.values() for one in functions)


def told(rust: Rust) -> str:
    """As the page has it."""
    return f'**{sum(map(len, bare(rust).values())):,} of {len(list(every(rust))):,} functions**'


def text(rust: Rust) -> Iterator[str]:
    """A line for each crate, those of most first."""
    for crate, functions in sorted(bare(rust).items(), key=lambda item: -len(item[1])):
        yield f'{crate}: {len(functions)}: {", ".join(one.meaning.part.name for one in functions)}'
    yield told(rust).strip('*')
