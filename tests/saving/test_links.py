"""4. A link stays. The file that it names is replaced, or made, as if it had been named itself."""

import resource
import signal
from typing import List, NamedTuple, Optional, Tuple

import pytest

from tests.harness import Folder, by_name
from tests.harness.game import left_files, save_text
from tests.saving.game import Saver, expect_none_left, expect_refused, expect_saved, expect_whole_left

#: A name and a text for each link.
Links = List[Tuple[str, str]]


class Way(NamedTuple):
    """A path in a room with folders `sub` and `sub/inner`, the links in it, and the file that is meant."""

    name: str
    links: Links
    path: str
    file: str


def chain(length: int) -> Links:
    """`l1` goes to `s.sav`, `l2` to `l1`, and so on."""
    return [(f'l{number}', f'l{number - 1}' if number > 1 else 's.sav') for number in range(1, length + 1)]


WAYS = [
    Way('no link', [], 's.sav', 's.sav'),
    Way('a link', [('link', 's.sav')], 'link', 's.sav'),
    Way('a link with a dot', [('link', './s.sav')], './link', 's.sav'),
    Way('a link with its whole path', [('link', 'ROOM/s.sav')], 'link', 's.sav'),
    Way('a whole path to a link', [('link', 's.sav')], 'ROOM/link', 's.sav'),
    Way('a link to another folder', [('link', 'sub/inner/s.sav')], 'link', 'sub/inner/s.sav'),
    Way('a link in another folder', [('sub/link', 's.sav')], 'sub/link', 'sub/s.sav'),
    Way('a link in another folder, to this one', [('sub/inner/link', '../../s.sav')], 'sub/inner/link', 's.sav'),
    Way('a link to a link elsewhere', [('link', 'sub/next'), ('sub/next', 'inner/s.sav')], 'link', 'sub/inner/s.sav'),
    Way('a link into a linked folder', [('way', 'sub/inner'), ('link', 'way/s.sav')], 'link', 'sub/inner/s.sav'),
    Way('a link out of a linked folder', [('way', 'sub/inner'), ('link', 'way/../s.sav')], 'link', 'sub/s.sav'),
    Way('a link in a linked folder', [('way', 'sub/inner'), ('sub/inner/link', '../s.sav')], 'way/link', 'sub/s.sav'),
    Way('a link with many slashes', [('link', './/sub///s.sav')], 'link', 'sub/s.sav'),
    Way('a link with a long text', [('sub/link', './' * 2000 + 's.sav')], 'sub/link', 'sub/s.sav'),
    # Where names change meanwhile, Linux begins a walk anew and counts its links twice, and it follows 40.
    Way('20 links', chain(20), 'l20', 's.sav'),
]

#: Links that lead to no file, though some could lead to one if there weren't so many. `sub` is a folder.
LOST_WAYS: List[Tuple[str, Links, str]] = [
    ('a link to itself', [('link', 'link')], 'link'),
    ('two links to each other', [('link', 'next'), ('next', 'link')], 'link'),
    ('41 links', chain(41), 'l41'),
    ('a link to a missing folder', [('link', 'none/s.sav')], 'link'),
    ('a link to a folder', [('link', 'sub')], 'link'),
    ('a link to a folder, with a slash', [('link', 'sub/')], 'link'),
    ('a link to what would be a folder', [('link', 'none/')], 'link'),
    ('a link through a file', [('link', 'file/s.sav')], 'link'),
]

#: How many bytes a file may have, and what is done about the signal that says so.
LIMITS: List[Tuple[int, List[signal.Signals]]] = [(0, [signal.SIGXFSZ]), (100, [signal.SIGXFSZ]), (0, []), (100, [])]

#: The things that stand there before.
OLD = [None, b'an old file']


def furnish(folder: Folder, links: Links) -> None:
    """Makes the folders and the links."""
    folder.make_folder('sub').close()
    folder.make_folder('sub/inner').close()
    for name, text in links:
        folder.link(name, text.replace('ROOM', folder.path))


def expect_links(room: Folder, links: Links) -> None:
    for name, text in links:
        assert room.link_text(name) == text.replace('ROOM', room.path), f'the link {name}'


@pytest.mark.parametrize('way', WAYS, ids=by_name)
def test_to_nothing_and_to_a_file(saver: Saver, way: Way) -> None:
    furnish(saver.room, way.links)
    saver.save_twice(saver.room, way.path.replace('ROOM', saver.room.path), way.file)
    expect_links(saver.room, way.links)


@pytest.mark.parametrize('way', WAYS, ids=by_name)
@pytest.mark.parametrize(('most', 'ignored'), LIMITS)
@pytest.mark.parametrize('old', OLD)
def test_limited(saver: Saver, way: Way, most: int, ignored: List[signal.Signals], old: Optional[bytes]) -> None:
    """A save that breaks off leaves what was there: nothing, or the old file."""
    furnish(saver.room, way.links)
    if old:
        saver.room.put(way.file, old, 0o640)
    path = way.path.replace('ROOM', saver.room.path)
    ended = saver.save(saver.room, path, limits={resource.RLIMIT_FSIZE: most}, ignored=ignored)
    if ignored:
        expect_refused(ended)
        expect_none_left(saver.room)
    else:
        assert ended.status == -signal.SIGXFSZ, 'the status'
    assert saver.room.read(way.file) == old, 'what was there'
    expect_links(saver.room, way.links)
    expect_saved(saver.save(saver.room, path))
    assert saver.room.read(way.file) == save_text(0), 'the next save'


@pytest.mark.parametrize(('links', 'path'), [way[1:] for way in LOST_WAYS], ids=[way[0] for way in LOST_WAYS])
def test_lost(saver: Saver, links: Links, path: str) -> None:
    furnish(saver.room, links)
    for name in ('file', 's.sav'):
        saver.room.put(name, b'a file')
    before = saver.room.names()
    expect_refused(saver.save(saver.room, path, 1), 1, saver.room)
    expect_whole_left(saver.room, save_text(1))
    assert [name for name in saver.room.names() if name not in left_files(saver.room)] == before, 'what lies there'
    assert [saver.room.read(name) for name in ('file', 's.sav')] == [b'a file'] * 2, 'the files beside'
    expect_links(saver.room, links)
