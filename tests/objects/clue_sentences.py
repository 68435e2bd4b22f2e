"""The sentence of a clue: which numbers in which squares would show too few or too many towers, and what has to be known for that (docs/HINTS.md)."""

from typing import Dict, FrozenSet, Iterable, List, NamedTuple, Optional, Sequence, Set, Tuple

from tests.objects.words import is_or_are, joined, line_name, losses, square, squares
from tests.second_implementation.steps import Left, Step, each, looked_at, seen_squares
from tests.second_implementation.towers import TowersPuzzle, counts_in_fillings

#: How many squares are named at most with all their numbers, and how many numbers those of them have that have several; how many with facts beside them.
MOST_SQUARES, MOST_NUMBERS, MOST_NAMED = 3, 8, 7

#: The words on the line if more has to be known.
OF_THE_LINE = {'stand': ', with the numbers in ', 'clue': ', by what is left in '}

#: Where a clue stands, by its side of the edge.
SIDES = ('above column', 'below column', 'left of row', 'right of row')

#: The numbers that may stand in each square of a clue's line.
Line = Dict[int, FrozenSet[int]]

#: Words on some squares, and how many these are.
Told = Tuple[str, int]


class Seen(NamedTuple):
    """The count seen, compared with the clue: `more`, `fewer`, `never`, or `both`; then by where a tower is that stands nowhere yet, or these counts."""

    word: str
    counts: FrozenSet[int] = frozenset()
    tower: int = 0
    fewer_in: Tuple[int, ...] = ()


def clue_sentence(puzzle: TowersPuzzle, left: Left, step: Step, names_squares: bool) -> str:
    size, kind, clue = puzzle.size, step.reason.kind, puzzle.clues[step.reason.place]
    side, at = divmod(step.reason.place, size)
    named = f"Clue {clue} {SIDES[side]} {at + 1}"
    plain = {1: 'the nearest tower is the tallest', size: 'all towers are seen and rise'}
    if kind == 'bound' and clue in plain:
        return f'{named}: {plain[clue]}, so {losses(size, step.strikes)}.'
    line = {cell: looked_at(kind, size, left[cell]) for cell in seen_squares(size, step.reason.place)}
    seen = all_seen(clue, line, step)
    known = [] if kind == 'bound' else known_squares(size, clue, line, seen) if names_squares else None
    seen, facts = settled(size, left, line, seen)
    told = [*(known or []), *facts]
    if known is None or (kind != 'bound' and sum(count for _, count in told) > (MOST_SQUARES if kind == 'stand' and not facts else MOST_NAMED)):
        words = OF_THE_LINE['clue' if facts else kind] + line_name(size, at if side > 1 else size + at)
    else:
        words = f', where {joined([fact for fact, _ in told], "and")}' if told else ''
    shown: Dict[Seen, Dict[int, List[int]]] = {}
    for (cell, number), what in seen.items():
        shown.setdefault(what, {}).setdefault(cell, []).append(number)
    return f"{named}{words}: {'; '.join(seen_with(size, clue, what, where) for what, where in shown.items())}."


# ---- what would be seen


def all_seen(clue: int, line: Line, step: Step) -> Dict[Tuple[int, int], Seen]:
    """What is seen with each struck number. If no tower decides with one of them, none is told of the others."""
    seen = {(cell, number): seen_at(clue, line, cell, number) for cell, numbers in step.strikes.items() for number in sorted(numbers)}
    if any(what.word == 'both' for what in seen.values()):
        return {(cell, number): seen_beside(clue, line, {cell: number}) for cell, number in seen}
    return seen


def seen_at(clue: int, line: Line, cell: int, number: int) -> Seen:
    beside = seen_beside(clue, line, {cell: number})
    if beside.word != 'both':
        return beside
    alone = {value for may in line.values() if len(may) == 1 for value in may}
    for tower in sorted(each(len(line)) - alone - {number}, reverse=True):
        fewer_in = fewer_by(clue, line, cell, number, tower)
        if fewer_in is not None:
            return Seen('split', tower=tower, fewer_in=fewer_in)
    return beside


def fewer_by(clue: int, line: Line, cell: int, number: int, tower: int) -> Optional[Tuple[int, ...]]:
    """The squares of a tower with which fewer are seen, if with it in each square they are always fewer or always more."""
    with_it = {other: seen_beside(clue, line, {cell: number, other: tower}).word for other in line if other != cell}
    return None if 'both' in with_it.values() else tuple(sorted(other for other, word in with_it.items() if word == 'fewer'))


def is_shown(clue: int, line: Line, cell: int, number: int, what: Seen) -> bool:
    """Whether a line shows this with a number in a square, too."""
    beside = seen_beside(clue, line, {cell: number})
    if what.word != 'split' or beside.word != 'both':
        return beside == what
    return fewer_by(clue, line, cell, number, what.tower) == what.fewer_in


def seen_beside(clue: int, line: Line, fixed: Dict[int, int]) -> Seen:
    counts = counts_in_fillings(tuple(may & {fixed[cell]} if cell in fixed else may for cell, may in line.items()))
    if not counts:
        return Seen('never')
    if min(counts) <= clue <= max(counts):
        return Seen('both', counts)
    return Seen('more' if clue < min(counts) else 'fewer')


# ---- what has to be known


def known_squares(size: int, clue: int, line: Line, seen: Dict[Tuple[int, int], Seen]) -> Optional[List[Told]]:
    """The squares that are enough, if they are few or filled, and otherwise facts; with anything in each other one the same is seen."""
    if any(what.word in ('never', 'both') for what in seen.values()):
        return None
    less = knowing_less(clue, line, seen, [*squares_of(size, line, False), *squares_of(size, line, True)])
    needed = [cell for cell in line if less[cell] != each(size)]
    several = [len(line[cell]) for cell in needed if len(line[cell]) > 1]
    if several and (len(needed) > MOST_SQUARES or sum(several) > MOST_NUMBERS):
        return known_numbers(size, clue, line, seen)
    return known_words(size, line, needed)


def known_words(size: int, line: Line, needed: Sequence[int]) -> List[Told]:
    alike: Dict[FrozenSet[int], List[int]] = {}
    for cell in sorted(needed, key=lambda cell: len(line[cell]) > 1):
        alike.setdefault(line[cell], []).append(cell)
    return [(f"{squares(size, sorted(those))} {is_or_are(those)} {joined(sorted(may), 'or')}", len(those)) for may, those in alike.items()]


def known_numbers(size: int, clue: int, line: Line, seen: Dict[Tuple[int, int], Seen]) -> List[Told]:
    """The filled squares that are enough, with where each number is not or where alone it can be."""
    several = squares_of(size, line, False)
    numbers = [(cell, frozenset([number])) for number in sorted(each(size)) for cell, _ in several]
    less = knowing_less(clue, line, seen, [*several, *numbers, *squares_of(size, line, True)])
    told: Dict[Tuple[bool, Tuple[int, ...], int], List[int]] = {}
    for number in sorted(each(size), reverse=True):
        lacks = sorted(cell for cell, _ in several if number not in less[cell])
        only = sorted(cell for cell in line if number in line[cell])
        if len(only) < len(lacks):
            told[True, tuple(only), number] = [number]
        elif lacks:
            told.setdefault((False, tuple(lacks), 0), []).append(number)
    return known_words(size, line, [cell for cell in line if len(less[cell]) == 1]) + [
        fact('only' if is_only else 'lacks', size, cells, numbers) for (is_only, cells, _), numbers in told.items()
    ]


def squares_of(size: int, line: Line, are_filled: bool) -> List[Tuple[int, FrozenSet[int]]]:
    """The squares that are filled or not, from the far end, with all numbers."""
    return [(cell, each(size)) for cell in reversed(list(line)) if (len(line[cell]) == 1) == are_filled]


def knowing_less(clue: int, line: Line, seen: Dict[Tuple[int, int], Seen], more: Sequence[Tuple[int, FrozenSet[int]]]) -> Line:
    """The line where these numbers, too, may stand in these squares, one after another, as far as the same is seen."""
    less = dict(line)
    for cell, numbers in more:
        tried = {**less, cell: less[cell] | numbers}
        if tried != less and all(is_shown(clue, tried, *struck, what) for struck, what in seen.items()):
            less = tried
    return less


def fact(kind: str, size: int, cells: Sequence[int], numbers: Sequence[int]) -> Told:
    """Where numbers stand, where they are not, or where alone they can be."""
    told, are = joined(sorted(numbers), 'or'), is_or_are(cells)
    words = {'stands': f'{squares(size, cells)} {are} {told}', 'lacks': f'{squares(size, cells)} {are} not {told}'}
    return words.get(kind, f"only {squares(size, cells, 'or')} can be {told}"), len(cells)


# ---- where the tallest tower is

#: Squares by what they say of a number, and the number.
Places = Dict[Tuple[str, int], Set[int]]


def settled(size: int, left: Left, line: Line, seen: Dict[Tuple[int, int], Seen]) -> Tuple[Dict[Tuple[int, int], Seen], List[Told]]:
    """Of two cases the ones that are possible by what is left of the line, and what says so."""
    places: Places = {}
    possible = {(cell, number): settled_at(left, line, cell, what, places) if what.word == 'split' else what for (cell, number), what in seen.items()}
    return possible, [fact(kind, size, sorted(cells), [number]) for (kind, number), cells in places.items() if cells]


def settled_at(left: Left, line: Line, cell: int, what: Seen, places: Places) -> Seen:
    others = {other for other in line if other != cell and what.tower in left[other]}
    stands = {other for other in others if len(left[other]) == 1}
    fewer = others.intersection(what.fewer_in)
    if stands:
        places.setdefault(('stands', what.tower), set()).update(stands)
        return Seen('fewer' if stands.intersection(fewer) else 'more')
    if not fewer:
        places.setdefault(('lacks', what.tower), set()).update(unfilled(left, what.fewer_in))
        return Seen('more')
    if fewer != others:
        return what._replace(fewer_in=tuple(sorted(fewer)))
    if what.tower in left[cell]:
        places.setdefault(('lacks', what.tower), set()).update(unfilled(left, set(line) - {cell, *what.fewer_in}))
    else:
        places.setdefault(('only', what.tower), set()).update(others)
    return Seen('fewer')


def unfilled(left: Left, cells: Iterable[int]) -> Set[int]:
    """Those with several numbers left; all of them, if none has."""
    return {cell for cell in cells if len(left[cell]) > 1} or set(cells)


# ---- words


def seen_with(size: int, clue: int, what: Seen, where: Dict[int, List[int]]) -> str:
    """With which numbers in which squares so much would be seen."""
    cells: Dict[Tuple[int, ...], List[int]] = {}
    for cell, numbers in where.items():
        cells.setdefault(tuple(numbers), []).append(cell)
    places = [f"{numbers_in_words(numbers)} in {squares(size, those, 'or')}" for numbers, those in cells.items()]
    if what.word == 'never':
        return f"no order has {', nor '.join(places)}"
    with_them = f"with {' or with '.join(places)}"
    if what.word == 'both':
        return f"{with_them} it would be {joined(sorted(what.counts), 'or')} towers, never {clue}"
    towers = f"than {clue} tower{'' if clue == 1 else 's'} would be seen"
    if what.word == 'split':
        where_fewer = joined([square(size, cell) for cell in what.fewer_in], 'or')
        return f'{with_them} fewer {towers} if {what.tower} is in {where_fewer}, and more if it is elsewhere'
    return f'{with_them} {what.word} {towers}'


def numbers_in_words(numbers: Sequence[int]) -> str:
    if len(numbers) == 1:
        return f"{'an' if numbers[0] == 8 else 'a'} {numbers[0]}"
    return joined(numbers, 'or')
