"""Files are put in their places, taken away, and tried there."""

from __future__ import annotations

import contextlib
import os
import subprocess
import tempfile
from typing import Iterable, Iterator, List, NamedTuple, Sequence, Tuple

from building.listing import ROOT
from building.record import put_link
from release import places
from release.places import NOTE, OURS, Folders, Item

#: The line of a command in Python that says where its package lies from there.
PACKAGE_LINE = "PACKAGE = '..'\n"

#: The list of what was installed, by which it goes again: first the files, then the folders that were made. Below a DESTDIR there is none.
LIST = f'{OURS}/INSTALLED'


def put(items: Sequence[Item], folders: Folders, note: str) -> None:
    """Puts each file in its place, with what is told of the programs, and makes the folders that lack."""
    made: List[str] = []
    for item in items:
        place = folders.of(item)
        made += make_folders(folders, os.path.dirname(place))
        put_item(item, folders, note)
    if not folders.root:
        _, made_before = listed(folders)
        files = [folders.place('datadir', LIST), *map(folders.of, items)]
        text = '\n'.join(sorted(files) + ['', *sorted({*made, *made_before}), ''])
        put_file(folders.now(files[0]), text.encode(), 0o644)


def put_item(item: Item, folders: Folders, note: str) -> None:
    """Puts one file or link, in a folder that is there."""
    place = folders.now(folders.of(item))
    if item.link:
        put_link(place, item.link)
        return
    content = note.encode() if item.source == NOTE else (ROOT / item.source).read_bytes()
    if item.source in places.SCRIPTS.values():
        content = with_package(item.source, content, folders)
    put_file(place, content, item.mode)


def make_folders(folders: Folders, place: str) -> Iterator[str]:
    """Makes a folder and those above it, as far as they lack; their places."""
    if place != '/' and not os.path.isdir(folders.now(place)):
        yield from make_folders(folders, os.path.dirname(place))
        os.mkdir(folders.now(place))
        # Whatever the umask is: others are to read what lies there.
        os.chmod(folders.now(place), 0o755)
        yield place
    elif place == '/' and folders.root:
        os.makedirs(folders.root, exist_ok=True)


def with_package(source: str, content: bytes, folders: Folders) -> bytes:
    """A command in Python, which finds its package from where it lies: both may be moved together."""
    way = os.path.relpath(folders.place('datadir', OURS), folders.place('gamesdir'))
    if content.count(PACKAGE_LINE.encode()) != 1:
        raise ValueError(f'{source} lacks the line {PACKAGE_LINE!r}')
    return content.replace(PACKAGE_LINE.encode(), f'PACKAGE = {way!r}\n'.encode())


def put_file(path: str, content: bytes, mode: int) -> None:
    """The old file, where there is one, stays whole until the new one takes its place: a program that runs is not written over."""
    new = f'{path}.new'
    with open(new, 'wb') as file:
        file.write(content)
        os.chmod(file.fileno(), mode)
    os.replace(new, path)


def listed(folders: Folders) -> Tuple[List[str], List[str]]:
    """The files that were installed here, and the folders that were made for them; nothing where there is no list."""
    try:
        with open(folders.now(folders.place('datadir', LIST)), encoding='utf-8', errors='surrogateescape') as file:
            files, _, made = file.read().partition('\n\n')
    except FileNotFoundError:
        return [], []
    return files.splitlines(), made.splitlines()


def remove(items: Sequence[Item], folders: Folders) -> None:
    """Takes away the files, and the folders that were made for them where nothing else lies there now.

    Without a list, which is so below a DESTDIR, each folder that is empty then goes.
    """
    files, made = listed(folders)
    if not files:
        files = list(map(folders.of, items))
        made = [above for file in files for above in all_above(file)] if folders.root else []
    for place in files:
        remove_file(folders.now(place))
    for place in sorted(set(made), key=len, reverse=True):
        remove_folder(folders.now(place))


def all_above(place: str) -> Iterator[str]:
    """The folders that a file lies in, but for the root."""
    above = os.path.dirname(place)
    if above != '/':
        yield above
        yield from all_above(above)


def remove_file(path: str) -> None:
    with contextlib.suppress(FileNotFoundError, NotADirectoryError):
        os.unlink(path)


def remove_folder(path: str) -> None:
    """Leaves a folder in which something lies."""
    try:
        os.rmdir(path)
    except OSError:
        if os.path.isdir(path) and not os.listdir(path):
            raise


class Trial(NamedTuple):
    """A command, what is typed to it, and how what it writes begins."""

    words: Sequence[str]
    input: str
    begins: str


SCRIPT = 'new 3:3//////3/////\nmove R0,0,1\nundo\nstatus\n'

TRIALS = [
    Trial(['puzzles', '--version'], '', f'puzzles {places.version()}\n'),
    Trial(['puzzles', 'towers'], SCRIPT, 'ok\nok\nok\nplaying 1/2\n'),
    Trial(['puzzles-json', '--version'], '', f'puzzles-json {places.version()}\n'),
    Trial(['puzzles-json', 'unequal'], 'undo\n', '{"refused":"NoGame",'),
    Trial(['puzzles-play', '--help'], '', 'usage: puzzles-play '),
    Trial(['puzzles-play', '--version'], '', f'puzzles {places.version()}\n'),
    Trial(['puzzles-page', '--help'], '', 'usage: puzzles-page '),
    Trial(['puzzles-page', '--version'], '', f'puzzles {places.version()}\n'),
    Trial(['puzzles-page', '--path'], '', '/'),
    Trial(['puzzles-sheet', '--help'], '', 'usage: puzzles-sheet '),
    Trial(['puzzles-sheet', '--ids', '-'], '3:3//////3/////\n', '<!DOCTYPE html>\n'),
    Trial(['puzzles-check', '--help'], '', 'usage: puzzles-check '),
    Trial(['puzzles-check', '--quick'], '3:3//////3/////\n', '-:1\ttowers\tone\te\t-\t3:3//////3/////\n'),
]


def check(items: Iterable[Item], folders: Folders) -> List[str]:
    """The faults of the installed files: a file that is lacking, or a command that doesn't answer as it should."""
    lacking = [folders.of(item) for item in items if not os.path.isfile(folders.now(folders.of(item)))]
    wrong = [f'{place} is not there' for place in lacking]
    return wrong or [text for trial in TRIALS for text in wrong_trial(trial, folders.now(folders.place('gamesdir')))]


def wrong_trial(trial: Trial, folder: str) -> Iterator[str]:
    """Runs the command in an empty folder, with next to nothing in its environment."""
    words = [os.path.join(folder, trial.words[0]), *trial.words[1:]]
    with tempfile.TemporaryDirectory() as place:
        env = {'PATH': os.environ.get('PATH', os.defpath), 'HOME': place}
        try:
            ended = subprocess.run(
                words, input=trial.input.encode(), cwd=place, env=env, stdout=subprocess.PIPE, stderr=subprocess.PIPE, timeout=60, check=False
            )
        except (OSError, subprocess.TimeoutExpired) as error:
            yield f'{" ".join(trial.words)}: {error}'
            return
    said = ended.stdout.decode(errors='replace')
    if ended.returncode or ended.stderr or not said.startswith(trial.begins):
        yield f'{" ".join(trial.words)}: status {ended.returncode}, {said[:200]!r}, {ended.stderr.decode(errors="replace")[:200]!r}'
