"""README's promises stand word for word in docs/PROMISES.md, with clauses that there are; and no body can tell which device it has."""

import re
from typing import Iterator, List, Sequence

import pytest

from tests.texts.parts import items, part, read
from trusting.contracts import Rust
from trusting.page import listed
from trusting.parts import Row, clauses, rows

#: The traits of devices, and their functions. One that tells whether bytes are said would let a body act otherwise on the system's.
DEVICES = {
    'Source': ['read'],
    'Sink': ['flush', 'write'],
    'GameFiles': ['read', 'write'],
    'Folder': ['flush', 'flush_folder', 'open_new', 'overwrite', 'remove', 'rename', 'take_after', 'write'],
}


def promised() -> List[str]:
    """The sentences of README that are promises: those of its quotation, and the one at the top."""
    top, quoted = read('README.md'), re.findall(r'^> (.*)', read('README.md'), re.MULTILINE)
    bold = re.findall(r'\*\*(Each red mark.*?)\*\*', re.sub(r'\s+', ' ', top))
    return re.findall(r'[^.]+\.', re.sub(r'\. ', '.', ' '.join(quoted))) + bold


def test_sentences() -> None:
    """Each promise by name has what carries it, and README's sentences stand in quotes among them."""
    told = [item for item in items(part(read('docs/PROMISES.md'), '## By name', '^## ')) if item.startswith('**')]
    quoted = [re.findall(r'of the kit: "(.*?)"', item)[0] for item in told]
    assert len(promised()) > 1 and [sentence for sentence in promised() if sentence not in ' '.join(quoted)] == []
    assert [item for item in told if 'Carried by' not in item] == []


@pytest.fixture(scope='module')
def rust() -> Rust:
    return Rust()


def lacking(row: Row, rust: Rust) -> Iterator[str]:
    """The names in parentheses that no function of a row has as a clause, and no trait as a ghost."""
    known = clauses(row, rust) | rust.laws.keys()
    for names in re.findall(r'\(([^()]*)\)', row.carried):
        yield from (name for name in re.findall(r'`([a-z_]+)`', names) if name not in known)


def test_clauses(rust: Rust) -> None:
    assert [(name, row.carried) for row in rows() for name in lacking(row, rust)] == []


def test_comments() -> None:
    """A reader of the shortest list meets no name in it that isn't there, in a comment neither."""
    one = listed('solve')
    told = {word for part in one.parts for word in re.findall(r'\w+', re.sub(r'(--|//).*', '', part.text))}
    named = {name for part in one.parts for name in re.findall(r'`(\w+)`', part.text)}
    assert not named - told


@pytest.mark.parametrize('trait, functions', DEVICES.items(), ids=DEVICES)
def test_devices(trait: str, functions: Sequence[str], rust: Rust) -> None:
    assert sorted(meaning.part.name.partition('::')[2] for meaning in rust.traits[trait].functions) == functions
    assert not [name for name in rust.traits[trait].above if name in rust.traits]
