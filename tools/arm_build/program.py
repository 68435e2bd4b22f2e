"""Builds the program of a proved crate for ARM, on a PC. The kit's libraries know no processor, so what was proved of the crate is taken as it is. The C library and
the files that a program starts by are Debian's, from its packages for building elsewhere."""

from __future__ import annotations

import tempfile
from hashlib import sha256
from pathlib import Path

from building.kit import command, kit_of
from building.listing import TOP, sum_of
from building.record import NAMES, Files, put
from web_build.module import over_libraries, run
from web_build.scripts import Unfit

KIT_C = 'tools/arm_build/kit.c'

#: Where the programs are left, without a record.
MADE = Files('build/arm', '', [])

C_LIBRARY = '/usr/aarch64-linux-gnu'
GCC = '/usr/lib/gcc-cross/aarch64-linux-gnu/12'

#: The files with which a program is linked.
LIBRARIES = [
    *(f'{C_LIBRARY}/lib/{name}' for name in 'Scrt1.o crti.o crtn.o ld-linux-aarch64.so.1 libc.so.6 libc_nonshared.a libgcc_s.so.1 libm.so.6'.split()),
    *(f'{GCC}/{name}' for name in 'crtbeginS.o crtendS.o libgcc.a'.split()),
]

TARGET = 'aarch64-unknown-linux-gnu'
C = ['--no-default-config', f'--target={TARGET}', '-nostdinc', '-isystem', f'{GCC}/include', '-isystem', f'{C_LIBRARY}/include']


def makers() -> str:
    """The kit, and a sum over what programs are linked with. Raises Unfit where there is none."""
    rt = command()
    if not rt or not all(Path(path).is_file() for path in LIBRARIES):
        raise Unfit('there is no command rt' if not rt else 'for ARM it needs more: apt-get install libc6-dev-arm64-cross libgcc-12-dev-arm64-cross')
    return f'{kit_of(rt)}, libraries {sha256("".join(map(sum_of, LIBRARIES)).encode()).hexdigest()}'


def build() -> str:
    """Builds the program over the libraries of crates that a build or the gate has left, and leaves it under each name; the path of the first. Raises Unfit."""
    library, crate = over_libraries(NAMES[0])
    tools = Path(library.KIT) / 'toolchain' / 'bin'
    with tempfile.TemporaryDirectory() as folder:
        Path(folder, 'bin').symlink_to(tools)
        Path(folder, 'lib').mkdir()
        for path in LIBRARIES:
            Path(folder, 'lib', Path(path).name).symlink_to(path)
        run([str(tools / 'clang'), *C, '-O2', '-fPIC', '-Wall', '-Wextra', '-Werror', '-c', f'{TOP}/{KIT_C}', '-o', 'kit.o'], folder)
        for_arm = ['--target', TARGET, '--toolchain', folder]
        words = [*crate.words(['--jobs', '2'], keeps=False), *library.KEPT, '--backend', 'llvm', *for_arm]
        run([*library.guarded(), library.RATTLE, 'build', *words, '-o', f'{folder}/program.o'], crate.folder)
        run([f'{library.KIT}/bin/rattle-link', *for_arm, '-o', 'program', 'program.o', 'kit.o'], folder)
        for name in NAMES:
            put(MADE.path(name), Path(folder, 'program').read_bytes(), 0o755)
    return MADE.path(NAMES[0])
