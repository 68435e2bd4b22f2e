"""Proves what has changed, and leaves the programs. `rt` does it all: it proves the crates side by side, each once those below it are proved, over what its
earlier runs have kept of these very sources, and says of each crate what it did when that has ended."""

from __future__ import annotations

import os
import re
import subprocess
import sys
import time
from typing import Sequence, TextIO

from bodies.kit import Kit, NoKit
from building.kit import command, kit_of
from building.listing import BUILD, ROOT, all_of, listed, own
from building.record import BUILT, CRATE, NAMES, put, sum_of_sources
from gating.in_turn import clean_up_at_signals

#: The words of the prover.
LOG = BUILD / 'prover.txt'

#: So many of the last lines that it said of a crate are shown where that isn't proved.
LAST = 20


class NotBuilt(Exception):
    """The text says why, with what the prover said of it."""


def make() -> int:
    """Proves and builds what has changed. The status to end with is 1 where a proof fails."""
    rt = command()
    if not rt:
        print(f'not built: there is no command {os.environ.get("RT") or "rt"}, which comes with the Rattle kit', file=sys.stderr)
        return 1
    kit, sources = kit_of(rt), sum_of_sources()
    if BUILT.fact('kit') == kit and not BUILT.fault(sources):
        return 0
    BUILT.forget()
    clean_up_at_signals()
    try:
        build(rt)
    except (NotBuilt, NoKit) as error:
        print(f'not built: {error}', file=sys.stderr)
        return 1
    except KeyboardInterrupt:
        return 130
    # Where a file has been changed meanwhile the programs are of sources that nobody has any more, and no record is right.
    if sum_of_sources() == sources:
        BUILT.write([kit, sources])
    return 0


def build(rt: str) -> None:
    """Proves the crates, and leaves the program under each name. Raises NotBuilt."""
    began = time.monotonic()
    crates, lanes = all_of([CRATE], listed()), Kit().lanes()
    say(f'proving {len(crates)} crates, {lanes} side by side, which takes half an hour or more if nothing is proved yet')
    BUILD.mkdir(exist_ok=True)
    with LOG.open('w', buffering=1, encoding='utf-8') as log:
        # The program also runs, on an empty input, which it ends at once with status 0.
        for words in ([rt, 'all', 'check', '--jobs', str(lanes)], [rt, 'run', '--', 'towers']):
            if logged(words, log):
                raise NotBuilt(fault())
    # One that is being played stays as it is until it ends.
    program = (own(CRATE) / 'out' / CRATE).read_bytes()
    for name in NAMES:
        put(BUILT.path(name), program, 0o755)
    say(f'built in {in_words(time.monotonic() - began)}')


def logged(words: Sequence[str], log: TextIO) -> int:
    """Runs a command in the folder of the program's crate, and gives its status. Its output goes to a log, and the name of its crate to standard error."""
    with subprocess.Popen(
        words, cwd=own(CRATE), stdin=subprocess.DEVNULL, stdout=subprocess.PIPE, stderr=subprocess.STDOUT, encoding='utf-8', errors='replace'
    ) as process:
        assert process.stdout
        try:
            for line in process.stdout:
                log.write(line)
                if re.match('== (?!summary)|rt: waiting', line):
                    say(line.rstrip())
        except BaseException:
            process.terminate()
            raise
    return process.returncode


def fault() -> str:
    """The crates that aren't proved, and the end of the output on them."""
    said = LOG.read_text(encoding='utf-8')
    of_crates = dict(re.findall(r'^== (\w+)\n(.*?)(?=^== |\Z)', said, re.MULTILINE | re.DOTALL))
    failed = re.findall(r'^(\w+): failed', of_crates.get('summary', ''), re.MULTILINE)
    name = failed[0] if failed else CRATE
    last = '\n'.join(of_crates.get(name, said).splitlines()[-LAST:])
    return f'{name} is not proved; the end of what {LOG.relative_to(ROOT)} has of it:\n{last}'


def say(text: str) -> None:
    print(text, file=sys.stderr, flush=True)


def in_words(seconds: float) -> str:
    whole = round(seconds)
    return f'{whole} s' if whole < 60 else f'{whole // 60} min {whole % 60} s'
