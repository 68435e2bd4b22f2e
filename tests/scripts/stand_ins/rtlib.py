"""Stands for the module of a kit that names crates to a prover: a library is there where a file says so."""

from __future__ import annotations

import os
from typing import Dict, List

KIT = os.path.dirname(os.path.dirname(os.path.realpath(__file__)))
RATTLE = f'{KIT}/bin/rattle'
#: As a kit has it: the words by which the prover keeps its results.
KEPT = ['--incremental', 'out/incremental']


def guarded() -> List[str]:
    return ['env']


def fits(*needs: int) -> bool:
    return len(needs) <= 2


class Crate:
    def __init__(self, folder: str, root: str, _known: Dict[str, str]) -> None:
        self.folder, self.root, self.name = folder, root, os.path.basename(folder)
        self.rlib = f'{folder}/out/rlib/{self.name}.rlib'

    def below(self) -> List[Crate]:
        return [Crate(f'{self.root}/crates/letters', self.root, {})] if self.name == 'words' else []

    def is_built(self) -> bool:
        with open(f'{self.folder}/out/rlib/stamp', encoding='utf-8') as stamp, open(f'{self.folder}/src/lib.rt', encoding='utf-8') as source:
            return stamp.read() == source.read()

    def words(self, flags: List[str], keeps: bool = True) -> List[str]:
        return ['--crate-name', self.name, *flags, 'src/lib.rt']
