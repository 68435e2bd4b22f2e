"""The work of kit.c, compared with that of the kit's own C, which is there for PCs alone: so both are built for a PC."""

import ctypes
import os
from ctypes import c_char_p, c_size_t, c_ssize_t, c_void_p
from itertools import product
from pathlib import Path
from typing import Iterator, List

import pytest

from arm_build.program import KIT_C
from building.kit import command
from tests.harness import TOP, Room, Skip, run

#: The mistake, the right code, and the code that does so.
ROWS = [
    ('nothing', 'malloc', 'malloc'),
    ('a block of no bytes has none', 'malloc(bytes ? bytes : align)', 'malloc(bytes)'),
    ('a block that is to have no bytes goes', 'realloc(at, bytes ? bytes : align)', 'realloc(at, bytes)'),
    ("nothing of a word that doesn't fit", 'length = 0;', 'length = 0;\nif (at < count && __builtin_strlen(words[at]) > room) return -2;'),
    ('a word that is just too long', '(length == room)', '(length > room)'),
    ('links are followed', ' | O_NOFOLLOW', ''),
    ('other programs get the folder', ' | O_CLOEXEC', ''),
]


class Tried(ctypes.Structure):
    _fields_ = [('is_there', ctypes.c_ulong), ('at', c_void_p)]


def blocks(kit: ctypes.CDLL) -> Iterator[object]:
    """A block is asked for, and then to have another size."""
    usable = ctypes.CDLL(None).malloc_usable_size
    usable.argtypes, usable.restype = [c_void_p], c_size_t
    kit.rattle_alloc.argtypes, kit.rattle_alloc.restype = [c_size_t] * 2, Tried
    kit.rattle_realloc.argtypes, kit.rattle_realloc.restype = [c_void_p, *[c_size_t] * 3], Tried
    for align, *sizes in product((1, 16, 64), *[(0, 1, 24, 25, 5000, 1 << 20, 1 << 62)] * 2):
        block = kit.rattle_alloc(sizes[0], align)
        yield block.is_there, bool(block.at), block.is_there and usable(block.at) >= (sizes[0] or align)
        other = kit.rattle_realloc(block.at, *sizes, align) if block.is_there else block
        yield other.is_there, bool(other.at), other.is_there and usable(other.at) >= (sizes[1] or align)


def words(kit: ctypes.CDLL) -> Iterator[object]:
    """Those that this process was run with, and room for more or less of them."""
    kit.rattle_arg.argtypes, kit.rattle_arg.restype = [c_size_t, c_char_p, c_size_t], c_ssize_t
    for at, room in product(range(kit.rattle_arg_count() + 2), range(20)):
        to = ctypes.create_string_buffer(b'-' * 20)
        yield kit.rattle_arg(at, to, room), to.raw


def folders(kit: ctypes.CDLL, room: Room) -> Iterator[object]:
    for name in (b'.', b'link', b'link/', b'kit.c', b'nowhere', b''):
        opened = kit.rattle_open_dir_at(room.fd, name)
        yield opened < 0, opened < 0 and kit.rattle_errno(), opened >= 0 and os.get_inheritable(opened)
    kit.rattle_set_errno(5)
    yield ctypes.get_errno()


def told(room: Room, *linked: str) -> List[object]:
    """The results of all calls, by a library that is made of this."""
    library = os.path.join(room.path, f'{len(room.names())}.so')
    assert run(['cc', '-shared', '-fPIC', '-o', library, '-Wl,--whole-archive', *linked, '-Wl,--no-whole-archive'], room).status == 0
    kit = ctypes.CDLL(library, use_errno=True)
    return [*blocks(kit), *words(kit), *folders(kit, room)]


@pytest.mark.parametrize(('right', 'wrong'), [row[1:] for row in ROWS], ids=[row[0] for row in ROWS])
def test_kit(room: Room, right: str, wrong: str) -> None:
    rt, text = command(), (TOP / KIT_C).read_text(encoding='utf-8')
    if not rt:
        raise Skip('there is no kit, whose C is compared', 'put its folder bin on the path')
    assert right in text
    room.link('link', '.')
    room.put('kit.c', text.replace(right, wrong).encode())
    archives = [str(Path(rt).resolve().parents[1] / 'c' / name) for name in ('libos_c.a', 'liblibc_c.a')]
    assert (told(room, 'kit.c') == told(room, *archives)) == (right == wrong)
