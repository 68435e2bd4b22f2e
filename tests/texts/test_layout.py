"""The documents are read in minutes: no line is wide, each link leads somewhere, and README is short, with a picture of the board as it is."""

import re
from typing import Iterator

import pytest

from tests.texts.parts import ROOT, documents, found, read, without_samples

#: The length that a line of a document may have at most, and one of README.
COLUMNS = 110
README_LINES = 110

#: The board's picture in README, and the one in its tests from which it comes.
PICTURES = ['towers-5-40x20', 'unequal-5-40x20']
PICTURE_LINES = 13

#: A link; and a document with the sections of it that are named.
LINK = re.compile(r'\]\(([^)#\s]*)(?:#([^)]*))?\)')
SECTIONS = re.compile(r'([A-Z_]+\.md)(?:\]\([^)]*\))?,\s+sections?\s+(\d+)(?:\s+(?:to|and)\s+(\d+))?')


def anchors(text: str) -> Iterator[str]:
    """The names by which a link leads to a heading."""
    for title in found(r'^#+ (.*)$', without_samples(text)):
        yield re.sub(r'[^\w -]', '', title.lower()).replace(' ', '-')


def lost_links(document: str) -> Iterator[str]:
    """Links to what isn't there, and sections that a document doesn't have."""
    text = without_samples(read(document))
    for path, anchor in LINK.findall(text):
        target = (ROOT / document).parent / path if path else ROOT / document
        if not target.exists():
            yield path
        elif anchor and anchor not in anchors(target.read_text(encoding='utf-8')):
            yield f'{path}#{anchor}'
    for name, *numbers in SECTIONS.findall(text):
        headings = found(r'^## (\d+)\. ', read(f'docs/{name}'))
        yield from (f'{name}, section {number}' for number in numbers if number and number not in headings)


@pytest.mark.parametrize('document', [*documents(), 'CHANGELOG.md'])
def test_no_line_is_wide(document: str) -> None:
    assert [number for number, line in enumerate(read(document).splitlines(), 1) if len(line) > COLUMNS] == []


@pytest.mark.parametrize('document', [*documents(), 'CHANGELOG.md'])
def test_links(document: str) -> None:
    assert list(lost_links(document)) == []


def test_readme_is_short() -> None:
    assert len(read('README.md').splitlines()) <= README_LINES


@pytest.mark.parametrize('name', PICTURES)
def test_readme_shows_the_board(name: str) -> None:
    shown = [line.strip() for line in read(f'tests/board/pictures/{name}.txt').splitlines()[:PICTURE_LINES]]
    assert [text for text in shown if text not in read('README.md')] == []
