"""The version is written in the file VERSION: the changes, the package and the programs have the same. The kit is that of the programs' record."""

import re

import pytest

from building.kit import command, kit_of
from building.listing import sum_of
from building.record import TREE
from tests.conftest import Programs
from tests.harness import Room, Skip, run
from tests.texts.parts import ROOT, documents, read

VERSION = read('VERSION').rstrip('\n')

#: The heading of a version in CHANGELOG.md, with its date, or of what is new since the last one.
HEADING = re.compile(r'## (?:([0-9]+(?:\.[0-9]+)+), ([0-9]{4}-[0-9]{2}-[0-9]{2})|After (.+))')

#: The first line of an entry of debian/changelog.
ENTRY = r'^verified-puzzles \((.+)-[0-9]+\) '

#: The places in the sources that have the version, since a program that is proved has all its texts there; with the version in brackets.
SOURCES = [
    ('crates/puzzle_cli/src/start/command_line.rt', r'\.version\("(.*)"\)'),
    ('crates/call_tests/src/tests/words.rt', r'"HelpAsked", 0, "(?:puzzles|dots) ([0-9.]+)"'),
]


def test_version() -> None:
    assert re.fullmatch(r'[0-9]+(\.[0-9]+)+', VERSION)


def test_changes() -> None:
    """Each version has a date, none is later than the one above, and the last one is VERSION's. Changes since then may stand above."""
    matches = [HEADING.fullmatch(heading) for heading in re.findall(r'^## .*', read('CHANGELOG.md'), re.MULTILINE)]
    assert None not in matches
    rows = [match.groups() for match in matches if match]
    if rows[0][2]:
        assert rows.pop(0)[2] == VERSION
    dates = [date for _, date, _ in rows]
    assert rows[0][0] == VERSION and dates == sorted(dates, reverse=True)


def test_package() -> None:
    """It has an entry for each version, the newest one first."""
    versions = re.findall(r'^## ([0-9.]+),', read('CHANGELOG.md'), re.MULTILINE)
    assert re.findall(ENTRY, read('debian/changelog'), re.MULTILINE) == versions


@pytest.mark.parametrize(('path', 'pattern'), SOURCES)
def test_sources(path: str, pattern: str) -> None:
    assert set(re.findall(pattern, read(path))) == {VERSION}


@pytest.mark.parametrize('document', documents())
def test_kit(document: str) -> None:
    """README names the kit by which the programs in the tree were proved, and no document another one."""
    named = set(re.findall(r'rattle-kit-\S+ logic \w+', read(document)))
    assert named == {TREE.fact('kit')} or (not named and document != 'README.md')


def test_kit_here(programs: Programs) -> None:
    """It is the one that is here, or that one builds the same bytes: in the gate the programs are those that were built."""
    rt = command()
    if not rt:
        raise Skip('there is no rt', 'the folder bin of the kit on the path')
    assert TREE.fact('kit') == kit_of(rt) or [sum_of(program) for program in programs] == [*TREE.sums().values()]


def test_programs(programs: Programs, room: Room) -> None:
    """A program says its own name and then the version."""
    for program in programs:
        assert run([program, '--version'], room).output.decode().split(' ')[1:] == [f'{VERSION}\n']
    said = run([str(ROOT / 'board' / 'puzzles-play'), '--version'], room).output.decode().splitlines()
    assert said[:1] == [f'puzzles {VERSION}']
