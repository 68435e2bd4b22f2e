"""The crates of the repository: what each stands on, the files that it is proved from, and copies of them, in which something is tried or proved."""

from __future__ import annotations

import os
import shutil
from hashlib import sha256
from pathlib import Path
from typing import Dict, Iterable, Iterator, List, Set

#: The crates of the repository, each with the libraries that it stands on, the kit's too.
Listed = Dict[str, List[str]]

#: The top of the repository, whatever the working folder is.
ROOT = Path(__file__).resolve().parent.parent.parent
TOP = str(ROOT)

#: The built programs lie there.
BUILD = ROOT / 'build'

#: The folders and files from which a crate is proved, and the endings of their names.
PARTS = ('src', 'specs', 'proofs')
READ = ('.rt', '.antt')


def lines_of_crates() -> Dict[str, str]:
    """The lines of crates.txt on each crate."""
    lines = (ROOT / 'crates.txt').read_text(encoding='utf-8').splitlines()
    plain = [line.partition('#')[0].strip() for line in lines]
    return {line.partition(':')[0].split()[0]: line for line in plain if ':' in line}


def listed() -> Listed:
    """All crates."""
    return {name: line.partition(':')[2].split() for name, line in lines_of_crates().items()}


def all_of(names: Iterable[str], crates: Listed) -> Set[str]:
    """These crates, and all below them."""
    found: Set[str] = set()
    left = list(names)
    while left:
        name = left.pop()
        if name not in found:
            found.add(name)
            left += [library for library in crates[name] if library in crates]
    return found


def own(name: str) -> Path:
    """The folder of a crate."""
    return ROOT / 'crates' / name


def files_of(crate: str) -> Iterator[str]:
    """The files that a crate is proved from, by their paths from the top, in order."""
    found = (os.path.relpath(path, TOP) for part in PARTS for path in (own(crate) / part).rglob('*') if path.suffix in READ)
    return iter(sorted(found, key=os.fsencode))


def sum_of(path: str) -> str:
    """The sum of a file."""
    return sha256(Path(path).read_bytes()).hexdigest()


def write_list(folder: Path, names: Iterable[str], crates: Listed) -> None:
    """Writes crates.txt for a copy of these crates and of all below them."""
    wanted = all_of(names, crates)
    (folder / 'crates.txt').write_text(''.join(f'{line}\n' for name, line in lines_of_crates().items() if name in wanted), encoding='utf-8')


def copy_folder(source: Path, target: Path, linked: bool = False) -> None:
    """Copies a folder where there is one; `linked` files are the same file in both, where the disk allows it."""
    if not source.is_dir():
        return
    if linked:
        try:
            shutil.copytree(source, target, copy_function=os.link)
            return
        except (OSError, shutil.Error):
            shutil.rmtree(target, ignore_errors=True)
    shutil.copytree(source, target)
