"""The promises that docs/PROMISES.md lists by name, and the contracts that say each of them."""

from __future__ import annotations

import re
from typing import Iterator, List, NamedTuple, Tuple

from trusting.contracts import Function, Rust
from trusting.parts import PAGE, meant

#: An item of the page; and in it the name of a list, how many lines that has and how many of the kit stand behind it, a sentence, and the contracts that say it: all
#: that carries it, up to the first semicolon, or other lists.
ON_PAGE = re.compile(r'^- \*\*\w+\*\*, \d.*(?:\n  .*)*', re.MULTILINE)
ITEM = re.compile(r'- \*\*(\w+)\*\*, [\d,]+ lines and ([\d,]+) of the kit: "(.*?)" .*Carried by (.*?)[.;](?: .*)?')

#: Where an item tells its lines, and those of the kit.
LINES = re.compile(r'(?<=\*\*, )[\d,]+ lines and [\d,]+(?= of the kit: )')

#: The functions that say it, each with those of its clauses that say the sentence where not all do.
FUNCTION = r'`([\w:]+)`(?: \(([^()]*)\))?'

#: Words that aren't followed, since what is promised is the same whatever they mean. First: what a move does, and when it is refused; what the puzzles of
#: both games are; and how a session keeps what takes its moves back. Then the texts that describe these puzzles, and how they are read.
OF_MOVES = ('step', 'start_of', 'refusal_of', 'towers_puzzle', 'unequal_puzzle', 'Towers', 'Unequal', 'AreLinked', 'Change')
OF_DESCRIPTIONS = ('IsTowersText', 'IsUnequalText', 'towers_at', 'unequal_at', 'towers_text', 'unequal_text')
LEFT = {
    'undo': (*OF_MOVES, 'HasNoSolution', 'HasSeveralSolutions', 'IsOnlySolution'),
    'save': (*OF_MOVES, 'SaveText', 'save_of', *OF_DESCRIPTIONS),
}


class Promise(NamedTuple):
    """The name of a list, the lines of the kit behind it as the page counts them, the sentence, and what says it: contracts, or other lists."""

    name: str
    of_kit: str
    sentence: str
    says: str

    @property
    def made_of(self) -> List[str]:
        return [] if '`' in self.says else self.says.split(', ')

    @property
    def left(self) -> Tuple[str, ...]:
        return LEFT.get(self.name, ())


def promises() -> Iterator[Promise]:
    for item in ON_PAGE.findall(PAGE.read_text(encoding='utf-8')):
        match = ITEM.fullmatch(re.sub(r'\s+', ' ', item))
        if not match:
            raise ValueError(f'{PAGE}: nothing can be read of {item}')
        yield Promise(*match.groups())


PROMISES = list(promises())


def promise(name: str) -> Promise:
    """The one of this name."""
    return next(one for one in PROMISES if one.name == name)


def functions_of(one: Promise, rust: Rust) -> Iterator[Function]:
    """The contracts that say a promise. A name that no function or law has, and one that no clause has, is a fault of the page."""
    owner = ''
    for name, clauses in re.findall(FUNCTION, one.says):
        before, _, last = name.rpartition('::')
        owner = before or owner
        found = meant(owner, last, rust)
        if len(found) != 1:
            raise ValueError(f'{PAGE}: {len(found)} functions are {owner}::{last}')
        yield with_clauses(found[0], re.findall(r'\w+', clauses)) if clauses else found[0]


#: The beginning of a clause, with the comments above it.
CLAUSE = re.compile(r'^(?: *//.*\n)* *(?:requires|ensures)\b(?: (\w+))?', re.MULTILINE)


def with_clauses(function: Function, clauses: List[str]) -> Function:
    """A function with these clauses of its contract, and with all that it requires."""
    part = function.meaning.part
    found = list(CLAUSE.finditer(part.text))
    lacking = set(clauses) - {match[1] for match in found}
    if lacking:
        raise ValueError(f'{part.name} has no clause {", ".join(sorted(lacking))}')
    ends = [match.start() for match in found[1:]] + [len(part.text)]
    kept = [part.text[match.start() : end] for match, end in zip(found, ends) if match[1] in clauses or 'requires' in match[0].split()]
    text = ''.join([part.text[: found[0].start()], *kept]).rstrip('\n')
    return function._replace(meaning=function.meaning._replace(part=part._replace(text=re.sub(r'\n\n+', '\n', text))))
