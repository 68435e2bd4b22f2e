"""A changed certificate is refused by both checkers, unless what it says is still so: brute force says that, at sizes 3 and 4."""

import copy
import itertools
import json
import random
import re
from typing import Any, Dict, List, Tuple

from tests.certificates.changes import CHANGES
from tests.certificates.checking import both, module
from tests.certificates.conftest import Writer, seeds, stored
from tests.objects.boards import puzzle_of
from tests.objects.solutions import latin_squares, solutions_of

#: So many of the changed ones are tried in the gate and by `make test`, and of them at most this part may still be right.
WHOLE, SAMPLE, STILL_RIGHT = 1000, 80, 0.3

#: Small puzzles whose certificates have a lemma.
LEARNED = ['unequal 4dr:0D,0,0,0D,2,0,0,0,0,0D,0,0,0,0,0U,0L,', 'unequal 4dr:0,0,0L,0,0,0L,0L,0,0D,0,0RL,0,0,0,0,0,', 'towers 4du://3//2///////2/1///,b1d1h']

#: The count of solutions that an answer claims.
COUNTS = {'none': 0, 'one': 1, 'several': 2}


def is_so(made: Dict[str, Any]) -> bool:
    """Whether what a certificate says of its puzzle is true."""
    found = solutions_of(puzzle_of(made['game'], made['id']))
    given = [tuple(grid) for grid in made['solutions']]
    return min(2, len(found)) == COUNTS[made['answer']] == len(set(given)) and set(given) <= set(found)


def changed(bases: List[Dict[str, Any]], count: int) -> List[Dict[str, Any]]:
    """So many, of all kinds in turn, each other than before."""
    chance, found = random.Random(89), []
    for change in itertools.cycle(CHANGES):
        made = copy.deepcopy(chance.choice(bases))
        try:
            change(made, chance)
        except (IndexError, KeyError):
            # It has nothing of the kind that is to be changed.
            continue
        if made not in bases:
            found.append(made)
        if len(found) == count:
            return found
    return []


def test_changed(writer: Writer, is_whole: bool) -> None:
    small = [id for path in ('playing/bank/towers.txt', 'playing/bank/unequal.txt') for id in stored(path) if id.split()[1][0] in '34'][::12]
    several = ['towers 3:///////////', 'unequal 4:1,2,3,4,0,0,0,0,0,0,0,0,0,0,0,0,', 'towers 3:3///////////', 'towers 4:///////////////,1c4k']
    none = ['towers 3:3/3//////////', 'unequal 3:1,1,0,0,0,0,0,0,0,', 'towers 4:4/4//////////////', 'unequal 4:4,4,0,0,0,0,0,0,0,0,0,0,0,0,0,0,']
    bases = writer.write([*small, *several, *none, *LEARNED, *(id for id in seeds(8) if id.split()[1][0] in '34')], words=['--needed', '--seconds', '3600']).certificates
    assert all(map(is_so, bases)) and all(any(kind in str(made['steps']) for made in bases) for kind in ('suppose', 'lemma'))
    tried = changed(bases, WHOLE if is_whole else SAMPLE)
    for at, made in enumerate(tried):
        writer.room.put(f'{at}', json.dumps(made).encode())
    python, node = both(writer.room, *map(str, range(len(tried))))
    assert node == python and python.error == b'', python.said[-500:]
    refused = set(re.findall(r"^NO.* of '(\d+)': ", python.output.decode(), re.MULTILINE))
    right = [made for at, made in enumerate(tried) if str(at) not in refused]
    assert [made for made in right if not is_so(made)] == []
    assert len(right) < STILL_RIGHT * len(tried), len(right)


def test_arrangements() -> None:
    """The arrangements that the checker calls possible, by trying all."""
    chance, possible = random.Random(3), module().possible
    for _ in range(3000):
        size = chance.choice([3, 3, 4, 4, 5])
        choices = [chance.sample(range(1, size + 1), chance.randint(0 if chance.random() < 0.1 else 1, size)) for _ in range(size)]
        clue = chance.choice([None, *range(1, size + 1)])
        found = [way for way in itertools.product(*choices) if len(set(way)) == size]
        assert possible(choices, clue) == any(clue in (None, sum(n == max(way[: at + 1]) for at, n in enumerate(way))) for way in found), (choices, clue)


def test_rules() -> None:
    """No step that is allowed strikes a number of a solution whose numbers are all left; tried on random boards, of which some have no way out."""
    chance, verify = random.Random(5), module()
    allowed = 0
    for _ in range(60):
        size = chance.choice([3, 4])
        if chance.random() < 0.5:
            clues = '/'.join(chance.choice(['', '', '', str(chance.randint(1, size))]) for _ in range(4 * size))
            puzzle = verify.Puzzle('towers', f'{size}:{clues}')
        else:
            signs = [(s % size < size - 1, s < size * size - size) for s in range(size * size)]
            fields = ['0' + 'R' * (right and chance.random() < 0.3) + 'D' * (down and chance.random() < 0.3) for right, down in signs]
            puzzle = verify.Puzzle('unequal', f'{size}:{",".join(fields)},')
        left = [sorted(chance.sample(range(1, size + 1), chance.randint(1, size))) for _ in range(size * size)]
        alive = [grid for grid in latin_squares(size) if not puzzle.broken(grid) and all(n in numbers for n, numbers in zip(grid, left))]
        whats: List[Tuple[str, List[Any]]] = [('line', list(range(2 * size))), ('clue', list(range(4 * size))), ('number', list(range(1, size + 1)))]
        whats.append(('sign', [list(sign) for sign in puzzle.signs]))
        for kind, what in ((kind, what) for kind, all_of in whats for what in all_of):
            for square, number in itertools.product(range(size * size), range(1, size + 1)):
                if verify.rules_out(puzzle, left, [], kind, what, square, number):
                    allowed += 1
                    assert not any(grid[square] == number for grid in alive), (kind, what, square, number)
    assert allowed > 1000
