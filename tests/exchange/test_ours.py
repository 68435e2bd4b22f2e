"""Our saves, opened by the usual program: every kind of move, with later states, solved, restarted, seeded, with kept bytes; and the IDs of fair games."""

import json
import re
from typing import List, Tuple

import pytest

from playing import fair
from tests.exchange.sides import Sides
from tests.harness import made, run

GAMES = ['towers', 'unequal']
SIZES = range(3, 10)
SEEDED_SIZES = range(3, 7)

#: How many of the stored puzzles of each game and size are taken, and their grades.
STORED, GRADES = 2, {'towers': 'ehxu', 'unequal': 'tekxr'}

#: Records that are kept as bytes, each with the record after which it stands. The usual program reads them all.
KEPT: List[Tuple[str, str]] = [
    ('CPARAMS ', 'SEED    :9:12:34 5,6'),
    ('DESC ', 'AUXINFO :8:0011aabb'),
    ('DESC ', 'UI      :4:C1,1'),
    ('DESC ', 'TIME    :4:12.5'),
]


@pytest.mark.parametrize(('game', 'size', 'number', 'puzzle'), [
    (game, size, number, puzzle) for game in GAMES for size in SIZES for number, puzzle in enumerate(made(game, size, GRADES[game])[:STORED])
])
def test_saves(sides: Sides, game: str, size: int, number: int, puzzle: str) -> None:
    """A puzzle's saves: fresh, with every kind of move, solved by hand and by the program, restarted, and with later states."""
    start = [f'--id={puzzle}']

    def save(kind: str, *commands: str) -> str:
        path = f'{game}-{size}-{number}-{kind}.sav'
        sides.make_save(game, path, start, commands)
        return path

    moves = moves_to(sides, game, size, puzzle, sides.solution(game, *start))
    # A pencil mark in each square and each one's clearing, and a done mark at each place of a clue.
    marks = [f'move P{x},{y},{number}' for y in range(size) for x in range(size) for number in (x + 1, 0)]
    done = [f'move D{x},{y}' for at in range(size) for x, y in ((at, -1), (at, size), (-1, at), (size, at))]
    every = ['move M', *marks, *done, *moves]

    fresh = save('fresh')
    sides.draws(game, '--game', puzzle, 'id.png')
    sides.look_alike(fresh, 'id.sav')

    hand, solve = save('by hand', *moves), save('solve', 'solve')
    assert sides.said(game, [f'--load={hand}'], 'status').startswith('solved ')
    assert sides.said(game, [f'--load={solve}'], 'status') == 'helped 2/2'
    sides.look_alike(hand, solve)

    full = save('every move', *every, 'solve', 'restart', 'move M', *moves[:2])
    sides.has_lines(full, [':M$', ':P.,.,[1-9]$', ':P.,.,0$', ':R', '^SOLVE ', '^RESTART ', *[':D'] * (game == 'towers')])
    sides.look_alike(save('restarted', *every, 'restart'), fresh)
    sides.look_alike(save('later states', *moves, 'undo', 'undo', 'undo'), save('without them', *moves[:-3]))
    sides.look_alike(save('all undone', 'move M', 'solve', 'undo', 'undo'), fresh)
    kept_bytes(sides, game, fresh)


def kept_bytes(sides: Sides, game: str, fresh: str) -> None:
    """A game with the records that are kept as bytes, played on."""
    lines = (sides.room.read(fresh) or b'').decode().splitlines()
    for before, record in reversed(KEPT):
        at = next((at for at, line in enumerate(lines, 1) if line.startswith(before)), 0)
        lines.insert(at, record)
    sides.room.put('with bytes.sav', ''.join(f'{line}\n' for line in lines).encode())
    sides.make_save(game, 'kept.sav', ['--load=with bytes.sav'], ['move M', 'undo'])
    sides.has_lines('kept.sav', [f'^{re.escape(record)}$' for _, record in KEPT])


@pytest.mark.parametrize('game', GAMES)
@pytest.mark.parametrize('seeded', [f'{size}!7' for size in SEEDED_SIZES])
def test_seeded(sides: Sides, game: str, seeded: str) -> None:
    """A seeded game: theirs opens its save and the ID that we write for it."""
    start = [f'--id={seeded}']
    sides.make_save(game, 'seeded.sav', start, ['move M', 'undo'])
    sides.draws(game, '--game', sides.said(game, start, 'id'), 'id.png')
    sides.look_alike('seeded.sav', 'id.sav')


def moves_to(sides: Sides, game: str, size: int, puzzle: str, solution: str) -> List[str]:
    """The moves that put a solution in, square by square, without those that a given square refuses."""
    moves = [f'move R{at % size},{at // size},{number}' for at, number in enumerate(solution)]
    replies = sides.said(game, [f'--id={puzzle}'], *moves).splitlines()
    return [move for reply, move in zip(replies, moves) if reply == 'ok']


#: So many fair games of each size and grade.
FAIR = 20

CLASSES = [(game, size, letter) for game in fair.OFFERED for size in fair.SIZES for letter in fair.letters(game, size)]


@pytest.mark.parametrize(('game', 'size', 'letter'), CLASSES)
def test_fair(sides: Sides, objects: str, game: str, size: int, letter: str) -> None:
    """The usual program opens the ID of each as a puzzle of its own, and finds the solution that ours finds."""
    lines = ''.join(f'{fair.line(size, letter, seed)}\nsolve\n' for seed in range(FAIR))
    answers = [json.loads(line) for line in run([objects, game], sides.room, input=lines.encode()).output.splitlines()]
    assert [answer['refused'] for answer in answers] == [None] * 2 * FAIR
    ids = [answer['session']['id'] for answer in answers[::2]]
    assert {id.partition(':')[0] for id in ids} == {f'{size}d{letter}'}
    ours = [(id.partition(':')[2], answer['reply'][0]) for id, answer in zip(ids, answers[1::2])]
    assert [(records.get('DESC'), records.get('SOLVE')) for records in sides.solves(game, ids)] == ours
