"""Builds a module of WebAssembly of a proved crate: the kit proves the crate and writes its text for LLVM, and what comes then is no work of the prover.

The kit compiles no calls of C for WebAssembly, and the heap is such calls. So the crate is built for x86-64, which the kit does; a script in clang's place keeps
what the kit gives to it; and that text is compiled for WebAssembly with 64-bit addresses, linked with the heap, and then brought to 32-bit addresses, since
not all browsers have the longer ones.
"""

from __future__ import annotations

import shlex
import shutil
import subprocess
import tempfile
from pathlib import Path
from typing import Any, Sequence, Tuple

from bodies.kit import NoKit, is_there, library_beside
from building.kit import command, kit_of
from building.listing import TOP
from gating.proofs import when_left
from web_build.retarget import retargeted
from web_build.scripts import Unfit
from web_build.sections import without_idle

HEAP = Path(__file__).with_name('heap.c')

#: The processor that the crate is built for: the default one has more, and the text then names it.
CPU = 'x86-64'

#: The words by which the kit has clang build for WebAssembly, but for less space: the page is a tenth smaller, and a fair game takes half as long again.
TARGET = ['--no-default-config', '-no-canonical-prefixes', '-fintegrated-cc1', '--target=wasm64-unknown-unknown', '-mcpu=lime1']
CODE = [
    *['-mllvm', '-expand-div-rem-bits=64', '-mllvm', '-expand-fp-convert-bits=64', '-ffunction-sections', '-fdata-sections', '-mllvm', '-trap-unreachable'],
    *['-mllvm', '-disable-machine-licm', '-mllvm', '-disable-postra-machine-licm', '-mllvm', '-sink-common-insts=false', '-Os'],
]
OF_HEAP = ['-O2', '-Wall', '-Wextra', '-Wno-unused-parameter', '-Werror', '-ffreestanding', '-nostdinc']

#: The features that Binaryen may find in the module; it refuses those that aren't named.
FEATURES = ['memory64', 'bulk-memory', 'sign-ext', 'mutable-globals', 'nontrapping-float-to-int', 'multivalue']

#: Stands in the place of clang: it keeps the text of each call of its own, and calls clang.
KEEPING = """\
#!/bin/sh
for word in "$@"; do
    case $word in *.bc | *.ll) cp "$word" "$(mktemp -p {kept} XXXXXXXX.bc)" ;; esac
done
exec {clang} "$@"
"""


def built(name: str) -> bytes:
    """The module of a crate that is a static library, over the libraries that a build or the gate has left. Raises Unfit."""
    library, crate = over_libraries(name)
    with tempfile.TemporaryDirectory() as folder:
        place = Path(folder)
        made = Work(place, Path(library.KIT))
        return made.module(made.text(library, crate))


def over_libraries(name: str) -> Tuple[Any, Any]:
    """The module `rtlib` of the kit, and a crate as it sees it, where the libraries below that are those of the sources here. Raises Unfit."""
    rt = command()
    if not rt:
        raise Unfit('there is no command rt, which comes with the Rattle kit')
    try:
        library = library_beside(rt)
    except NoKit as error:
        raise Unfit(str(error)) from None
    crate = library.Crate(f'{TOP}/crates/{name}', TOP, {})
    left = when_left(kit_of(rt))
    lacking = [below.name for below in crate.below() if not is_there(below, left)]
    if lacking:
        raise Unfit(f'the libraries below {name} are not there as they are now: {", ".join(lacking)}')
    return library, crate


class Work:
    """The steps, in a folder of their own."""

    def __init__(self, place: Path, kit: Path) -> None:
        self._place = place
        self._kit = kit
        self._tools = kit / 'toolchain' / 'bin'
        self._clang = [str(self._tools / 'clang'), *TARGET]

    def text(self, library: Any, crate: Any) -> str:
        """Proves the crate, as far as an earlier check hasn't, and builds it; the text that the kit then writes for LLVM."""
        kept = self._place / 'kept'
        kept.mkdir()
        words = [*crate.words(['--jobs', '2'], keeps=False), *library.KEPT]
        words += ['--backend', 'llvm', '--cpu', CPU, '--toolchain', str(self._toolchain(kept))]
        self._run([*library.guarded(), library.RATTLE, 'build', *words, '-o', str(self._place / 'native.a')], crate.folder)
        texts = list(kept.iterdir())
        if len(texts) != 1:
            raise Unfit(f'the kit has called clang for {len(texts)} texts, and not for one')
        self._run([str(self._tools / 'clang'), '-S', '-emit-llvm', '-x', 'ir', str(texts[0]), '-o', str(self._place / 'native.ll')])
        return (self._place / 'native.ll').read_text(encoding='utf-8')

    def module(self, text: str) -> bytes:
        """The module of the text."""
        place = self._place
        (place / 'wasm.ll').write_text(retargeted(text), encoding='utf-8')
        self._run([*self._clang, *CODE, '-c', '-x', 'ir', 'wasm.ll', '-o', 'wasm.o'])
        self._run([*self._clang, *OF_HEAP, '-c', str(HEAP), '-o', 'heap.o'])
        self._run([str(self._tools / 'llvm-ar'), 'rc', 'libmodule.a', 'wasm.o', 'heap.o'])
        link = [str(self._kit / 'bin' / 'rattle-link'), '--target', 'wasm64-unknown-unknown', '--toolchain', str(self._kit / 'toolchain')]
        self._run([*link, '-o', 'linked.wasm', 'libmodule.a'])
        (place / 'long.wasm').write_bytes(without_idle((place / 'linked.wasm').read_bytes()))
        self._run(['wasm-opt', *(f'--enable-{feature}' for feature in FEATURES), '--memory64-lowering', 'long.wasm', '-o', 'short.wasm'])
        return (place / 'short.wasm').read_bytes()

    def _toolchain(self, kept: Path) -> Path:
        """A folder as the kit's, in which the script stands in the place of clang."""
        folder = self._place / 'toolchain'
        (folder / 'bin').mkdir(parents=True)
        for tool in self._tools.iterdir():
            if tool.name != 'clang':
                (folder / 'bin' / tool.name).symlink_to(tool)
        (folder / 'lib').symlink_to(self._kit / 'toolchain' / 'lib')
        script = folder / 'bin' / 'clang'
        script.write_text(KEEPING.format(kept=shlex.quote(str(kept)), clang=shlex.quote(str(self._tools / 'clang'))), encoding='utf-8')
        script.chmod(0o755)
        return folder

    def _run(self, words: Sequence[str], folder: str = '') -> None:
        run(words, folder or str(self._place))


def run(words: Sequence[str], folder: str) -> None:
    """Raises Unfit with what a command has said, where it fails."""
    try:
        ran = subprocess.run(
            words, cwd=folder, stdin=subprocess.DEVNULL, stdout=subprocess.PIPE, stderr=subprocess.STDOUT, encoding='utf-8', errors='replace', check=False
        )
    except OSError as error:
        raise Unfit(f'{words[0]}: {error.strerror}') from None
    if ran.returncode:
        raise Unfit(f'{Path(words[0]).name} has failed, with status {ran.returncode}:\n{ran.stdout}')


def binaryen() -> str:
    """The line that tells one Binaryen from another; nothing where there is none."""
    if not shutil.which('wasm-opt'):
        return ''
    ran = subprocess.run(['wasm-opt', '--version'], stdin=subprocess.DEVNULL, stdout=subprocess.PIPE, encoding='utf-8', errors='replace', check=False)
    return ran.stdout.strip().partition('\n')[0]
