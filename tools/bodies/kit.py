"""The used parts of the kit: how its command `rt` names a crate and the libraries below it to the prover, and the prover itself; and the copy of some
crates in which they are edited and proved."""

from __future__ import annotations

import importlib.util
import os
import subprocess
import threading
from pathlib import Path
from typing import Any, Collection, Iterator, List, NamedTuple, Sequence, Set

from bodies.edits import Texts
from building.listing import PARTS, all_of, copy_folder, listed, own, write_list
from building.kit import command, kit_of
from gating.proofs import when_left

#: The memory that a check takes at most, in bytes.
MEMORY = 3_000_000_000


class NoKit(Exception):
    """There is no kit to prove with. Its text says why."""


class Said(NamedTuple):
    """The output of a run of the prover, and its status."""

    status: int
    text: str


class Kit:
    """The kit of the command `rt`, or of the one that RT names."""

    def __init__(self) -> None:
        """Raises `NoKit`. To be called before any thread begins."""
        rt = command()
        if not rt:
            raise NoKit('there is no command rt, and RT names none')
        #: The text that tells this kit from another.
        self.line = kit_of(rt)
        self._library = library_beside(rt)
        # The words before each command of the kit, so that it ends when this process does.
        self._front: List[str] = self._library.guarded()
        self._running: Set[subprocess.Popen[str]] = set()
        self._lock = threading.Lock()
        self._is_stopped = False

    def lanes(self) -> int:
        """How many checks may run at once: as RT_JOBS says, or as many as there are processors and memory for."""
        fixed = os.environ.get('RT_JOBS', '')
        if fixed.isdigit() and int(fixed):
            return int(fixed)
        return max((count for count in range(1, 65) if self._library.fits(*[MEMORY] * count)), default=1)

    def crate(self, top: Path, name: str) -> Any:
        """A crate of a repository, as the kit sees it: it has a `folder`, an `rlib`, what `is_built`, and what is `below` it."""
        return self._library.Crate(str(top / 'crates' / name), str(top), {})

    def check(self, crate: Any, more: Sequence[str]) -> Said:
        """Checks a crate, in one process, with these words besides."""
        words = [*self._front, self._library.RATTLE, 'check', *crate.words(['--jobs', '1'], keeps=False), *more]
        quiet = subprocess.DEVNULL
        with self._lock:
            if self._is_stopped:
                return Said(2, 'it was stopped')
            ran = subprocess.Popen(
                words, cwd=crate.folder, stdin=quiet, stdout=subprocess.PIPE, stderr=subprocess.STDOUT, encoding='utf-8', errors='replace'
            )
            self._running.add(ran)
        said = ran.communicate()[0]
        with self._lock:
            self._running.discard(ran)
        return Said(ran.returncode, said)

    def stop(self) -> None:
        """Ends what runs, and begins nothing more."""
        with self._lock:
            self._is_stopped = True
            for ran in self._running:
                ran.kill()


def library_beside(rt: str) -> Any:
    """The module `rtlib`, which lies beside the file of the command."""
    file = Path(rt).resolve().with_name('rtlib.py')
    spec = importlib.util.spec_from_file_location('rtlib', file)
    if not file.is_file() or not spec or not spec.loader:
        raise NoKit(f'beside {rt} there is no rtlib.py')
    made = importlib.util.module_from_spec(spec)
    spec.loader.exec_module(made)
    return made


class Tree:
    """The copy, in a folder. The libraries that earlier builds left are used, and not written to."""

    def __init__(self, folder: Path, names: Collection[str], kit: Kit) -> None:
        self.kit = kit
        self.top = folder
        self._left = when_left(kit.line)
        crates = listed()
        write_list(self.top, names, crates)
        for name in all_of(names, crates):
            for part in PARTS:
                copy_folder(own(name) / part, self.folder(name) / part)
            copy_folder(own(name) / 'out' / 'rlib', self.folder(name) / 'out' / 'rlib', linked=True)

    def folder(self, name: str) -> Path:
        return self.top / 'crates' / name

    def lacking(self, name: str) -> List[str]:
        """The libraries below a crate that aren't there as their sources are now."""
        return [library.name for library in self.kit.crate(self.top, name).below() if not is_there(library, self._left)]

    def check(self, name: str, texts: Texts, paths: Sequence[str]) -> Said:
        """Checks these functions of a crate, or all of it, with these texts in it, over what was checked here before."""
        files = {self.folder(name) / file: text for file, text in texts.items()}
        before = {file: file.read_bytes() for file in files}
        for file, text in files.items():
            file.write_text(text, encoding='utf-8')
        try:
            asked = [word for path in paths for word in ('--only', path)]
            return self.kit.check(self.kit.crate(self.top, name), [*asked, '--incremental', str(self.top / 'kept' / name)])
        finally:
            for file, content in before.items():
                file.write_bytes(content)


def is_there(library: Any, left: float) -> bool:
    """Whether a library was made of the sources that it has now: by the sum that `rt lib` left beside it; or, of one that `rt ci` left, by the time until which those
    were left that are of the sources here, or the dates of the files."""
    if (Path(library.folder) / 'out' / 'rlib' / 'stamp').exists():
        return bool(library.is_built())
    try:
        made = os.stat(Path(library.rlib) / 'format').st_mtime
    except OSError:
        return False
    return made <= left or all(date <= made for crate in [library, *library.below()] for date in dates(Path(crate.folder)))


def dates(folder: Path) -> Iterator[float]:
    """When the files of a crate were last written."""
    return (path.stat().st_mtime for part in PARTS for path in (folder / part).rglob('*') if path.is_file())
