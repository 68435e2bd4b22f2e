"""Puzzles by size, grade and series: fair games of the seeds of a series, as the program makes them."""

from __future__ import annotations

import itertools
from typing import Dict, Iterable, Iterator, List, NamedTuple, Sequence

from playing import fair
from playing.board import GAMES
from playing.games import GRADES
from sheet.puzzles import Programs, Puzzle, Unfit, proved

#: How far apart the seeds of a series are. A series has a number below this, so no two of them have a seed in common.
STRIDE = 10**12

#: After so many seeds in a row of which the program makes no game no more are tried.
TRIES = 100

#: The sentence if the program makes no games of a kind, by the name of its refusal; and refusals of a seed alone.
REFUSED = {'BadLetter': '{game} of size {size} has no {grade} puzzles: --ids prints the puzzles of a list.'}
OTHERWISE = 'The program refuses that: {name}.'
OF_THE_SEED = ('BadSeed', 'NoneFound')
UNEVEN = '{count} {puzzles} of {kinds} kinds: {shares}'
#: Words of sentences on several puzzles, as they are of one.
ONE = {'puzzles': 'puzzle', 'have': 'has', 'stand': 'stands', 'are': 'is'}
NONE_FOUND = 'No {grade} puzzle of {game} of size {size} was found with {tries:,} seeds, from {first} to {last}.'


class Kind(NamedTuple):
    """The puzzles that there are to be."""

    game: str
    size: int
    #: The letter of the grade.
    letter: str


def kinds(game: str, sizes: Sequence[int], letters: Sequence[str]) -> List[Kind]:
    """Rising by size, and then by grade."""
    return [Kind(game, size, letter) for size in sorted(set(sizes)) for letter in fair.OFFERED[game] if letter in letters]


def shared(every: Sequence[Kind], count: int) -> List[Kind]:
    """The kind of each of so many puzzles: as many of one as of another, as far as that comes out even."""
    return [every[at * len(every) // count] for at in range(count)]


def sentence(text: str, number: int, **more: object) -> str:
    """It speaks of so many puzzles."""
    return text.format(**{word: one if number == 1 else word for word, one in ONE.items()}, **more)


def uneven(every: Sequence[Kind], wanted: Sequence[Kind]) -> List[str]:
    """The sentence if there aren't as many puzzles of one kind as of another."""
    counts = [(wanted.count(kind), kind) for kind in every]
    if len({count for count, _ in counts}) == 1:
        return []
    shares = ', '.join(f'{count} of size {kind.size} {GRADES[kind.game][kind.letter]}' for count, kind in counts)
    return [sentence(UNEVEN, len(wanted), count=len(wanted), kinds=len(every), shares=shares)]


def check(programs: Programs, every: Iterable[Kind]) -> None:
    """Raises `Unfit` where one of the kinds is not made: a seed that there isn't is refused last, so nothing has to be made for that."""
    for kind in dict.fromkeys(every):
        _begin(programs, kind, fair.SEEDS)


def puzzles(programs: Programs, kind: Kind, first: int, stride: int) -> Iterator[Puzzle]:
    """Those of the seeds from the first one on, with so much between two; after the last seed comes 0. Raises `Unfit` where none is found any more."""
    tried: List[int] = []
    for number in itertools.count(first, stride):
        tried.append(number % fair.SEEDS)
        if _begin(programs, kind, tried[-1]):
            yield proved(programs, kind.game)
            tried = []
        elif len(tried) == TRIES:
            raise Unfit(NONE_FOUND.format(tries=TRIES, first=tried[0], last=tried[-1], **_words(kind)))


def _begin(programs: Programs, kind: Kind, seed: int) -> bool:
    """Begins the game of a seed; false where that has none. Raises `Unfit` where no seed has one."""
    refused = programs.ask(kind.game, fair.line(kind.size, kind.letter, seed)).refused
    if refused in (None, *OF_THE_SEED):
        return refused is None
    raise Unfit(REFUSED.get(str(refused), OTHERWISE).format(name=refused, **_words(kind)))


def _words(kind: Kind) -> Dict[str, object]:
    return {'game': GAMES[kind.game], 'size': kind.size, 'grade': GRADES[kind.game][kind.letter]}
