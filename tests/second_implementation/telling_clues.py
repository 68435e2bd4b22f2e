"""The sentences of clues, told of a step's object alone (docs/HINTS.md, Clues of Towers)."""

from typing import Any, Dict, FrozenSet, List, NamedTuple, Sequence, Tuple

from tests.objects.words import is_or_are, joined, line_name, losses, squares

Object = Dict[str, Any]

#: Numbers, and the squares that have them.
Alike = Dict[Tuple[int, ...], List[int]]


class Seen(NamedTuple):
    """The towers that would be seen: `fewer` or `more` than the clue, `none` in any order, `never` the clue but these counts, or `either`: fewer with
    this number in these squares, and otherwise more."""

    word: str
    numbers: Tuple[int, ...] = ()
    cells: Tuple[int, ...] = ()


def strikes_of(step: Object) -> Dict[int, FrozenSet[int]]:
    return {strike['cell']: frozenset(strike['numbers']) for strike in step['strikes']}


def clue_sentence(size: int, step: Object) -> str:
    named, plain = f'Clue {clue_name(size, step)}', {1: 'the nearest tower is the tallest', size: 'all towers are seen and rise'}
    if step['reason'] == 'bound' and step['clue'] in plain:
        return f"{named}: {plain[step['clue']]}, so {losses(size, strikes_of(step))}."
    parts = [part(size, step['clue'], seen, alike(where)) for seen, where in by_seen(step).items()]
    return f"{named}{known_words(size, step)}: {'; '.join(parts)}."


def clues_sentence(size: int, steps: Sequence[Object]) -> str:
    """One of several clues, all of which see fewer towers with the same number, or all more."""
    clues = joined([clue_name(size, step) for step in steps], 'and')
    seen, = {seen.word for step in steps for seen in by_seen(step)}
    return f"Clues {clues}: with {places(size, alike([strike for step in steps for strike in step['strikes']]))} {seen} towers would be seen."


def clue_name(size: int, step: Object) -> str:
    x, y = step['x'], step['y']
    beside = f"{'above' if y < 0 else 'below'} column {x + 1}" if y in (-1, size) else f"{'left' if x < 0 else 'right'} of row {y + 1}"
    return f"{step['clue']} {beside}"


# ---- before the colon


def known_words(size: int, step: Object) -> str:
    """The squares that are named, and where the tallest tower is; or the line, if more has to be known than can be named."""
    facts = tower_words(size, step)
    if not step['known'] and (step['reason'] == 'stand' or (step['reason'] == 'clue' and not facts)):
        line = line_name(size, size + step['x'] if step['y'] in (-1, size) else step['y'])
        return f", {'by what is left' if facts or step['reason'] == 'clue' else 'with the numbers'} in {line}"
    # Squares with one number come first, and then the nearer ones.
    nearest = step['known'][::-1 if size in (step['x'], step['y']) else 1]
    together = alike(sorted(nearest, key=lambda known: len(known['numbers']) > 1))
    named = [f"{squares(size, sorted(cells))} {is_or_are(cells)} {joined(numbers, 'or')}" for numbers, cells in together.items()]
    return f", where {joined(named + facts, 'and')}" if named or facts else ''


def tower_words(size: int, step: Object) -> List[str]:
    """The squares where a number is, those where it can't be, and the only ones where it can. Numbers that only have to be known are told together, if
    they can't be in the same squares."""
    where: Dict[Tuple[int, str, bool], List[int]] = {}
    for split in step['split']:
        if split['place'] != 'either':
            where.setdefault((split['number'], split['place'], split['seen'] is not None), []).append(split['cell'])
    told: Dict[Tuple[str, Tuple[int, ...], int], List[int]] = {}
    for (number, place, decides), cells in where.items():
        told.setdefault((place, tuple(cells), number * (decides or place == 'only')), []).append(number)
    return [
        f"only {squares(size, cells, 'or')} can be {joined(numbers, 'or')}" if place == 'only'
        else f"{squares(size, cells)} {is_or_are(cells)} {'not ' * (place == 'not')}{joined(numbers, 'or')}"
        for (place, cells, _), numbers in told.items()
    ]


# ---- behind it


def by_seen(step: Object) -> Dict[Seen, List[Object]]:
    """The struck numbers of squares, by what would be seen with them."""
    found: Dict[Seen, List[Object]] = {}
    for strike in step['strikes']:
        of_square: Dict[Seen, List[int]] = {}
        for number, shows in zip(strike['numbers'], strike['shows']):
            of_square.setdefault(seen_with(step, number, shows), []).append(number)
        for seen, numbers in of_square.items():
            found.setdefault(seen, []).append({'cell': strike['cell'], 'numbers': numbers})
    return found


def seen_with(step: Object, number: int, shows: Sequence[int]) -> Seen:
    if not shows or not min(shows) < step['clue'] < max(shows):
        return Seen('none' if not shows else 'more' if step['clue'] < min(shows) else 'fewer')
    # The tallest tower decides, and the next one where it is the tallest that is struck.
    deciding = [split for split in step['split'] if split['number'] != number and (split['seen'] or split['place'] == 'either')]
    tallest = max((split['number'] for split in deciding), default=0)
    decides = [split for split in deciding if split['number'] == tallest]
    either = tuple(split['cell'] for split in decides if split['place'] == 'either')
    if either or not decides:
        return Seen('either', (tallest,), either) if either else Seen('never', tuple(shows))
    return Seen(decides[0]['seen'])


def part(size: int, clue: int, seen: Seen, where: Alike) -> str:
    with_them, towers = f'with {places(size, where)}', f"than {clue} tower{'s' * (clue != 1)} would be seen"
    if seen.word == 'none':
        return f"no order has {places(size, where, ', nor ')}"
    if seen.word == 'never':
        return f"{with_them} it would be {joined(seen.numbers, 'or')} towers, never {clue}"
    if seen.word == 'either':
        return f"{with_them} fewer {towers} if {seen.numbers[0]} is in {squares(size, seen.cells, 'or')}, and more if it is elsewhere"
    return f'{with_them} {seen.word} {towers}'


def places(size: int, where: Alike, between: str = ' or with ') -> str:
    counted = {numbers: joined(numbers, 'or') if len(numbers) > 1 else f"{'an' if numbers == (8,) else 'a'} {numbers[0]}" for numbers in where}
    return between.join(f"{counted[numbers]} in {squares(size, cells, 'or')}" for numbers, cells in where.items())


def alike(squares_with: Sequence[Object]) -> Alike:
    together: Alike = {}
    for one in squares_with:
        together.setdefault(tuple(one['numbers']), []).append(one['cell'])
    return together
