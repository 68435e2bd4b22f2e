"""Results that are kept between runs, outside of the repository: what was refused at an open goal, and what was proved, of these very sources, kit and scripts."""

from __future__ import annotations

import contextlib
import hashlib
import json
import os
import tempfile
from pathlib import Path
from typing import Dict, Iterable, List

from bodies.edits import Edit
from building.record import sum_of_sources

#: The scripts by which a result was found, beside the kit: these scripts.
SCRIPTS = Path(__file__).resolve().parent

#: How many results are kept, those that were asked for last: those of all crates in some versions.
MOST = 5000


class Kept:
    """The results of one kit, in a folder: each is a file that is named for its key. With ANEW=1 in the environment none is looked at, but new ones are kept.
    Nothing is kept if the environment names no place for the folder, or nothing can be written there."""

    def __init__(self, kit: str) -> None:
        self._kit = f'{kit} {sum_of(path.read_text(encoding="utf-8") for path in sorted(SCRIPTS.glob("*.py")))}'
        self._is_anew = os.environ.get('ANEW') == '1'
        cache = os.environ.get('XDG_CACHE_HOME') or os.path.join(os.environ.get('HOME') or '.', '.cache')
        self._folder = Path(cache, 'verified-puzzles', 'bodies') if os.path.isabs(cache) else None
        self._sums: Dict[str, str] = {}

    def key(self, crate: str, what: str, edit: Edit) -> str:
        """The key of a result: the kit, the crate and all below it, the tried code, and the edit."""
        if crate not in self._sums:
            self._sums[crate] = sum_of_sources([crate])
        return sum_of([self._kit, self._sums[crate], crate, what, repr(edit.pairs)])

    def find(self, key: str) -> List[str]:
        """The words of a result, or none."""
        with contextlib.suppress(OSError):
            if self._folder and not self._is_anew:
                os.utime(self._folder / key)
                return (self._folder / key).read_text(encoding='utf-8', errors='replace').split('\n', 1)
        return []

    def keep(self, key: str, words: List[str]) -> None:
        """Keeps a result of one line, or of one and a text, whole or not at all."""
        with contextlib.suppress(OSError):
            if self._folder:
                self._folder.mkdir(mode=0o700, parents=True, exist_ok=True)
                with tempfile.NamedTemporaryFile('w', dir=self._folder, prefix='.new.', delete=False, encoding='utf-8') as file:
                    file.write('\n'.join(words))
                os.replace(file.name, self._folder / key)
                for path in sorted(self._folder.iterdir(), key=lambda path: path.stat().st_mtime)[:-MOST]:
                    path.unlink()


def sum_of(texts: Iterable[str]) -> str:
    return hashlib.sha256(json.dumps(list(texts)).encode()).hexdigest()
