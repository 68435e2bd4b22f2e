"""Tarballs that have the same bytes each time: names in order, root's, all as old as the commit, and no time in the compression."""

from __future__ import annotations

import gzip
import io
import os
import re
import tarfile
import tempfile
from typing import Iterator, NamedTuple

from building.listing import ROOT, sum_of
from building.record import BUILT, TREE, TREES
from release import installing, places
from release.note import Ready, commit, fit, fit_to_install, git, sums_in
from release.places import Folders
from web_build.scripts import Unfit

#: The folders of the tarball of programs, which are those below PREFIX. The documents lie at its top.
FOLDERS = {
    'gamesdir': '/bin',
    'datadir': '/share',
    'mandir': '/share/man',
    'docdir': '/',
    'bashcompdir': '/share/bash-completion/completions',
    'zshcompdir': '/share/zsh/site-functions',
    'fishcompdir': '/share/fish/vendor_completions.d',
}


#: How hard a tarball is compressed. The highest level takes three times as long for a hundredth less.
LEVEL = 6


class Archive(NamedTuple):
    name: str
    content: bytes


def archives() -> Iterator[Archive]:
    """The sources of the last commit, and its programs, those of a build for this machine alone. Raises Unfit where something differs from that commit."""
    head = git('rev-parse', 'HEAD').decode().strip()
    if commit() != head:
        raise Unfit('there are changes that are not committed')
    programs = fit_to_install(head)
    name = f'puzzles-{places.version()}'
    sources = git('-c', 'tar.umask=0022', 'archive', '--format=tar', f'--prefix={name}/', 'HEAD')
    yield Archive(f'{name}.tar.gz', compressed(sources))
    for tree in [TREE] if programs.folder == BUILT.folder else TREES.values():
        kind = f'{name}-{os.path.basename(tree.folder)}'
        yield Archive(f'{kind}.tar.gz', compressed(packed(programs if tree is TREE else fit(head, tree), kind)))


def compressed(content: bytes) -> bytes:
    file = io.BytesIO()
    with gzip.GzipFile('', 'wb', LEVEL, file, mtime=0) as zipped:
        zipped.write(content)
    return file.getvalue()


def packed(programs: Ready, name: str) -> bytes:
    """The installed files, as a tarball with one folder at its top."""
    seconds = int(git('show', '-s', '--format=%ct', 'HEAD'))
    with tempfile.TemporaryDirectory() as folder:
        installing.put(places.items(programs.folder), Folders(folder, FOLDERS), programs.note)
        log = log_of(programs)
        if log:
            installing.put_file(f'{folder}/gate.log', log, 0o644)
        installing.put_file(f'{folder}/SHA256SUMS', sums_below(folder).encode(), 0o644)
        return tarball(folder, name, seconds)


def log_of(programs: Ready) -> bytes:
    """The last line of the gate, if it has passed with these programs, at this commit; otherwise nothing."""
    path = ROOT / 'build' / 'gate.log'
    if not path.is_file():
        return b''
    log = path.read_bytes()
    text = log.decode(errors='replace')
    has_passed = re.search(r'^[1-9][0-9]* passed, 0 failed(, [0-9]+ skipped)?\n\Z', text, re.MULTILINE)
    is_of_these = text.startswith(f'commit {programs.commit}\n') and set(programs.sums.values()) <= set(sums_in(text).values())
    return log if has_passed and is_of_these else b''


def sums_below(folder: str) -> str:
    """A line for each file, as `sha256sum -c` reads them."""
    found = (os.path.join(way, file) for way, _, files in os.walk(folder) for file in files)
    return ''.join(f'{sum_of(path)}  {os.path.relpath(path, folder)}\n' for path in sorted(found))


def tarball(folder: str, name: str, seconds: int) -> bytes:
    """The folder under this name, with all in it as old as is said."""

    def same(info: tarfile.TarInfo) -> tarfile.TarInfo:
        info.uid = info.gid = 0
        info.uname = info.gname = 'root'
        info.mtime = seconds
        info.mode = 0o755 if info.isdir() or info.mode & 0o100 else 0o644
        return info

    file = io.BytesIO()
    with tarfile.open(fileobj=file, mode='w', format=tarfile.GNU_FORMAT) as tar:
        tar.add(folder, name, filter=same)
    return file.getvalue()
