"""The forms of sentences that docs/HINTS.md has, each below its board."""

import re
from typing import Iterator, List, NamedTuple, Sequence, Set

from tests.harness.builds import TOP
from tests.objects.reading import Object

#: The parts that differ between sentences of one form, and their stand-ins: one after the other.
SAME = [
    (r'\b[Rr]\dc\d\b', 'S'),
    (r'(?:S, )*S (?:and|or) S\b', 'S'),
    (r'\b(?:row|column) \d', 'L'),
    (r'\b(?:above|below|left of|right of) L', 'beside L'),
    (r'\b(?:an? )?\d\b', 'N'),
    (r'(?:N, )*N (?:and|or) N\b', 'N'),
    (r'(?:N beside L, )*N beside L and N beside L', 'N beside L'),
    (r'\bare\b', 'is'),
    (r'\bstand\b', 'stands'),
    (r"\baren't\b", "isn't"),
    (r'(?:, | and )S is N\b', ''),
    (r'(?:, | and )S is not N\b', ''),
    (r'(?:, | and )only S can be N\b', ''),
    (r'(?: or with|, nor) N in S\b', ''),
]


class Sentence(NamedTuple):
    """A sentence of a hint, and the game and lines after which it is told."""

    text: str
    game: str
    lines: List[str]


def sentences() -> Iterator[Sentence]:
    """Those of the manual, each below its board: an ID, and moves to it. A sentence continues in lines that are indented more."""
    page = (TOP / 'docs' / 'HINTS.md').read_text(encoding='utf-8')
    for game, board, text in re.findall(r'^    (towers|unequal) (.*)\n((?:      .*\n)+)', page, re.MULTILINE):
        id, *moves = board.split()
        for sentence in re.sub(r'\n {9}', ' ', text).splitlines():
            yield Sentence(sentence.strip(), game, [f'new {id}', *(f'move {move}' for move in moves)])


def told(texts: Sequence[Sequence[str]]) -> Iterator[str]:
    """The sentences of texts, without their numbers. A sentence continues in lines that are indented."""
    for text in texts:
        for sentence in re.sub(r'\n {3}', ' ', '\n'.join(text)).splitlines():
            yield re.sub(r'^\d+\. ', '', sentence)


def told_by(hint: Object) -> List[str]:
    """All sentences of a hint: those of its steps, and of its text."""
    return list(told([*(step['text'] for step in hint['steps']), hint['text']]))


def parts_of(sentence: str) -> Set[str]:
    """The part before the colon, and each of the parts after it, without what differs from board to board."""
    for differs, same in SAME:
        sentence = re.sub(differs, same, sentence)
    before, _, after = sentence.rstrip('.').partition(': ')
    return {before, *after.split('; ')}


KNOWN: Set[str] = set().union(*(parts_of(sentence.text) for sentence in sentences()))


def expect_known(hint: Object) -> None:
    """The manual has each form that a hint says."""
    for sentence in told_by(hint):
        assert parts_of(sentence) <= KNOWN, sentence
