"""The note on the programs that are ready: version, commit, prover, where they are from, and their sums. It is installed as `VERSION`."""

from __future__ import annotations

import re
import subprocess
from typing import Dict, List, NamedTuple, Optional

from building.listing import ROOT
from building.ready import NotReady, ready
from building.record import BUILT, NAMES, Files, sum_of_sources
from release.places import version
from web_build.kept import made_fault
from web_build.scripts import Unfit


class Ready(NamedTuple):
    """Files of the sources that are here, and what is told of them."""

    #: From the top.
    folder: str
    commit: str
    sums: Dict[str, str]
    note: str


def fit(at: str, programs: Optional[Files] = None) -> Ready:
    """The programs that are ready, or these, at this commit. Raises Unfit where there are none of the sources."""
    try:
        programs = programs or ready()
    except NotReady as error:
        raise Unfit(str(error)) from None
    fault, kit, own = programs.fault(sum_of_sources()), programs.fact('kit'), programs.sums()
    if fault:
        raise Unfit(fault)
    origin = 'taken from a build' if programs is BUILT else 'taken from the repository'
    sums = ''.join(f'{own[name]}  {name}\n' for name in NAMES)
    return Ready(programs.folder, at, own, f'{head(at)}proved by {kit}\n{origin}\n{sums}')


def fit_to_install(at: str) -> Ready:
    """The same, where the page is ready, too."""
    programs, wrong = fit(at), made_fault()
    if wrong:
        raise Unfit(f'{wrong}: run make web')
    return programs


def tell() -> int:
    """Prints what is told, where there are no programs, too. Gives the status to end with."""
    at = commit()
    try:
        print(fit(at).note, end='')
    except Unfit:
        print(head(at), end='')
    return 0


def head(at: str) -> str:
    return f'version {version()}\ncommit {at}\n'


def sums_in(text: str) -> Dict[str, str]:
    """The sums of files by their names, in a text that has lines as `sha256sum` writes them."""
    return {name: digest for digest, name in re.findall(r'^([0-9a-f]{64})  (.+)$', text, re.MULTILINE)}


def commit() -> str:
    """The commit that the repository is at, with ' and changes' where files differ from it."""
    return subprocess.run([ROOT / 'tools' / 'commit'], stdout=subprocess.PIPE, check=True).stdout.decode().strip()


def git(*words: str) -> bytes:
    """The answer of git here. Raises Unfit where it can't."""
    command: List[str] = ['git', '-C', str(ROOT), *words]
    try:
        return subprocess.run(command, stdout=subprocess.PIPE, stderr=subprocess.PIPE, check=True).stdout
    except FileNotFoundError:
        raise Unfit('there is no git here') from None
    except subprocess.CalledProcessError as failed:
        raise Unfit(f'{" ".join(words[:2])}: {failed.stderr.decode(errors="replace").strip()}') from None
