"""The manual pages name what the programs have, and can be read: without a warning, and in 80 columns."""

import re
from typing import List

import pytest

from tests.harness import Room, Skip, need, run
from tests.texts.parts import ROOT, found, part, read
from tests.texts.test_completions import FRONTS, front_options
from tests.texts.test_users import wanted

#: The lines that a page may have at most, in its source and on a terminal.
COLUMNS = 80

#: Readers of manual pages: how each tells what is wrong with one, and how it shows one.
READERS = [
    (['mandoc', '-T', 'lint', '-W', 'style'], ['mandoc', '-T', 'ascii']),
    (['groff', '-ww', '-mandoc', '-T', 'utf8', '-z'], ['groff', '-mandoc', '-T', 'ascii', '-P', '-c']),
    (['man', '--warnings', '-E', 'UTF-8', '-Tutf8', '-Z', '-l'], ['man', '-E', 'ascii', '-l']),
]

#: The pages that are documents.
DOCUMENTS = {'man/puzzles.5': 'docs/FORMATS.md', 'man/puzzles-hints.7': 'docs/HINTS.md'}

#: The words on pages that aren't installed, or are so without a list of all pages.
OF_OTHERS = r'referenced manual not found|mandoc\.db'

#: A bold or underlined letter, as a typewriter makes it, without the first stroke.
STRUCK_TWICE = r'.\x08|\x1b\[[0-9;]*m'


def pages() -> List[str]:
    return sorted(f'man/{path.name}' for path in (ROOT / 'man').iterdir())


@pytest.mark.parametrize('script', ['manual', 'texts', 'trust'])
def test_made(room: Room, script: str) -> None:
    """The texts that these made by --write are those that they make now: the pages that are documents, sentences of the page and tables of its sheets, and numbers of
    lines to read."""
    if script == 'manual':
        need('pandoc')
    made = run([str(ROOT / 'tools' / script)], room, seconds=600)
    if made.status == 77:
        raise Skip('another pandoc made the pages', 'that of Debian 12')
    assert (made.status, made.error) == (0, b'')


@pytest.mark.parametrize(('page', 'document'), DOCUMENTS.items())
def test_document(room: Room, page: str, document: str) -> None:
    """Its page leaves out no word."""
    need('mandoc')
    shown = re.sub(STRUCK_TWICE, '', run(['mandoc', '-T', 'ascii', str(ROOT / page)], room).output.decode())
    document = re.sub(r'<!--.*?-->|\]\(#.*?\)|^\|(?: [a-z]+ \|)+$', ' ', read(document), flags=re.MULTILINE)
    assert sorted(set(re.findall(r'\w+', document.casefold())).difference(re.findall(r'\w+', shown.casefold()))) == []


@pytest.mark.parametrize('name', [*FRONTS, 'puzzles-json'])
def test_options(room: Room, name: str) -> None:
    options = part(read(f'man/{name}.6'), '.Ss Options', r'^\.S[hs]')
    told = found(r'Fl -([\w-]+)', '\n'.join(found(r'^\.It (.*)$', options)))
    assert set(told) == set(front_options(room, name) if name in FRONTS else wanted()[1]) != set()


@pytest.mark.parametrize('page', pages())
def test_source(page: str) -> None:
    """Its lines are short, and it leads to the other pages."""
    text = read(page)
    others = [(other[len('man/') : -2], other[-1]) for other in pages() if other != page]
    assert [line for line in text.split('\n') if len(line) > COLUMNS] == []
    assert not set(others) - set(re.findall(r'^\.(?:Xr|BR) (\S+) \(?(\d)', text, re.MULTILINE))


@pytest.mark.parametrize(('checks', 'shows'), READERS, ids=['mandoc', 'groff', 'man'])
@pytest.mark.parametrize('page', pages())
def test_reader(room: Room, checks: List[str], shows: List[str], page: str) -> None:
    """Each reader finds faults that the others pass over."""
    need(checks[0])
    path = str(ROOT / page)
    ended = run([*checks, path], room)
    warnings = ended.said if checks[0] == 'mandoc' else ended.error.decode(errors='replace')
    assert [line for line in warnings.splitlines() if not re.search(OF_OTHERS, line)] == []
    shown = run([*shows, path], room, env={'MANWIDTH': str(COLUMNS)})
    told = re.sub(STRUCK_TWICE, '', shown.output.decode(errors='replace'))
    assert [line for line in told.splitlines() if len(line) > COLUMNS] == []
