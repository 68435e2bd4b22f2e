"""The files that desktops read of us: the entry in their menu, and the text of a centre for software. The desktop's own tools find nothing wrong with it."""

import os
import re
import shutil
import xml.etree.ElementTree as xml
from configparser import ConfigParser
from typing import List

import pytest

from tests.harness import TOP, Room, run

FOLDER = TOP / 'desktop'
ENTRIES = sorted(path.name for path in FOLDER.glob('*.desktop'))
METAINFO = FOLDER / 'verified-puzzles.metainfo.xml'

COMMANDS = {'puzzles', 'puzzles-check', 'puzzles-json', 'puzzles-page', 'puzzles-play', 'puzzles-sheet'}


def validated(room: Room, words: List[str]) -> None:
    if not shutil.which(words[0]):
        pytest.skip(f'there is no {words[0]}')
    ended = run([shutil.which(words[0]) or '', *words[1:]], room)
    assert ended.status == 0, ended.said


@pytest.mark.parametrize('name', ENTRIES)
def test_entry(room: Room, name: str) -> None:
    validated(room, ['desktop-file-validate', '--warn-kde', str(FOLDER / name)])
    told = ConfigParser(interpolation=None)
    told.read(FOLDER / name, encoding='utf-8')
    entry = told['Desktop Entry']
    assert entry['Exec'] in COMMANDS
    assert entry['TryExec'] == entry['Exec']
    assert entry['Icon'] == 'verified-puzzles'


def test_metainfo(room: Room) -> None:
    validated(room, ['appstreamcli', 'validate', '--no-net', str(METAINFO)])


def test_metainfo_is_true() -> None:
    """It leads to what is installed, and its versions are those of the changes."""
    told = xml.parse(METAINFO).getroot()
    assert {one.text for one in told.iter('binary')} == COMMANDS
    assert [one.text for one in told.iter('launchable')] == ['verified-puzzles.desktop']
    changes = (TOP / 'CHANGELOG.md').read_text(encoding='utf-8')
    released = re.findall(r'^## ([\d.]+), (\d{4}-\d\d-\d\d)$', changes, re.MULTILINE)
    assert [(one.get('version'), one.get('date')) for one in told.iter('release')] == released


def test_page_opens(room: Room) -> None:
    """The command opens the file that it prints, where there is a screen; where there is none it says so, and prints it."""
    command, page = str(TOP / 'page' / 'puzzles-page'), f'{TOP}/programs/web/puzzles.html\n'
    assert run([command, '--path'], room) == (0, page.encode(), b'')
    none = run([command], room)
    assert (none.status, none.output, none.error) == (1, page.encode(), b'puzzles-page: there is no screen here: open this file in a browser:\n')
    made = run(['make', '-C', str(TOP), '--no-print-directory', 'page'], room)
    assert made == (0, none.output, none.error), 'to make that is no error'
    room.put('xdg-open', b'#!/bin/sh\necho "$@" > opened.part && mv opened.part opened\n')
    os.chmod(f'{room.path}/xdg-open', 0o755)
    opened = run(['sh', '-c', f'PATH={room.path}:$PATH DISPLAY=:9 "$0" && until [ -e opened ]; do sleep 0.05; done', command], room)
    assert (opened.status, opened.said) == (0, '')
    assert room.read('opened') == page.encode()
