"""Lines at random: moves good and bad, calls, views, IDs good and bad, long lines, bytes that are no UTF-8. Both programs answer them alike, and
what else is told agrees with a second implementation."""

from functools import lru_cache
from typing import Dict, List, Tuple

import pytest
from hypothesis import HealthCheck, given, seed, settings
from hypothesis import strategies as st

from tests.harness import made
from tests.objects.agreement import BOARD, SESSION, Pair, Script, expect_agreement
from tests.objects.test_refused import BEGINNING, OTHER
from tests.second_implementation.games import GAMES
from tests.second_implementation.grades import LETTERS
from tests.second_implementation.saves import COLLECTION, written

#: IDs of sizes 3 and 4, some with one solution, several or none, with givens or without.
SMALL: Dict[str, List[str]] = {
    'towers': [
        '3:3//////3/////', '3:///////////', '3:3///////////', '3:3///3////////', '3:///////////,1c3c2', '3de:3//////3/////',
        '3:///////////,1_1g', '4:///////////////', '4:4///////////////,o1', '4:2/2/3/1////////////',
        '4!1', '4!7', '4!23', '3!5',
    ],
    'unequal': [
        '3:0,0L,0L,0U,0,0,0U,0,0,', '3:0,0,0,0,0,0,0,0,0,', '3:1,1,0,0,0,0,0,0,0,', '3dt:0R,0R,0,0,0,0,0,0,0', '4!1', '4!7', '4!23',
        '3!5', '4:0R,0R,0R,0,0,0,0,0,0,0,0,0,0,0,0,0,', '4:4,0L,0,0,0,0,0,0D,0,0,0,0,0,0,0,0,',
    ],
}
BAD_IDS = [
    '5#7', '5!', '7!1', '5de!7', '3', '', '2:', '3:3//', '3:4///////////', '3:0R,0L,0,0,0,0,0,0,0,', '5a:', '5dz:', '3:"\\\x01/',
]

#: Lines that no random choice would meet soon.
ODD: List[bytes] = [
    b'', b'\r', b'\r\r', b' ', b'undo ', b'undo x', b'Undo', b'move', b'move ', b'new', b'list', b'list 0', b'list 101', b'list 05',
    *(line.encode() for line in OTHER), b'{"line":"undo"}', b'"', b'\\', b'\x00', b'\x7f', b'\x1b[A', b'\xff\xfe', b'move R0,0,\xb2', b'new 3:\xc3\xa9',
    b'undo\x00', b'\xc3\xa9' * 300, b'x' * 1024, b'x' * 1025, b'x' * 1024 + b'\r', b'x' * 1023 + b'\r', b'y' * 5000, b'move R01,0,1', b'move H0,0,1',
    b'move F0,0,1', b'move S123', b'move D-0,1', b'quit ',
]

#: Lines for fair games: seeds of which the second implementation has every game soon.
FAIR: Dict[str, List[str]] = {
    game: [f'fair {size} {letter} {seed}' for size in (3, 4) for letter in letters for seed in (1, 9, 20261126)] for game, letters in LETTERS.items()
}

#: The numbers of the only solution of `3:3//////3/////`.
SOLVED = [b'move R%d,%d,%s' % (at % 3, at // 3, b'123231312'[at:at + 1]) for at in range(9)]

#: Characters with which a text has to be careful, and texts that look like a reply.
CAREFUL = [b'playing 1/1\n', b'\nok\n', b'"', b'\\', b'\\n', b'\x00', b'\x1f', b'\x7f', b'\x80', b'\xff', b'\r', b'\n', b'\xe2\x82\xac']

#: Scripts in so many parts, which can be tried side by side.
PARTS, EACH = 20, 50


@lru_cache(maxsize=None)
def stored(game: str) -> List[str]:
    """Puzzles of all sizes that are soon solved."""
    return [id for size in range(3, 10) for id in made(game, size, 'eh' if game == 'towers' else 'tek')]


def number_move(words: Tuple[bytes, int, int, int]) -> bytes:
    return b'move %s%d,%d,%d' % words


def clue_move(place: Tuple[int, int]) -> bytes:
    return b'move D%d,%d' % place


#: Most are good at some size. The functions that map strategies have names here: hypothesis would read the source of each lambda each time.
NUMBER = st.sampled_from([0, 0, 1, 1, 2, 2, 3, *range(10)])
NUMBERS = st.tuples(st.sampled_from([b'R', b'R', b'P']), NUMBER, NUMBER, NUMBER).map(number_move)
MOVE = st.one_of(
    NUMBERS,
    NUMBERS,
    NUMBERS,
    st.just(b'move M'),
    st.sampled_from([b'move S123231312', b'move S132213321', b'move S123312231', b'move S1234341241232341', b'move S1']),
    st.tuples(st.sampled_from([-1, 0, 3, 4]), NUMBER).map(clue_move),
    st.tuples(NUMBER, st.sampled_from([-1, 0, 3, 4])).map(clue_move),
)
SETTING = [b'solutions', b'spare', b'spare e', b'spare h', b'spare k']
CALL = st.sampled_from([
    *[b'undo', b'undo', b'redo', b'redo', b'restart', b'solve', b'save', *BOARD, b'completable', b'hint', b'hint marks', b'grade', *SETTING],
    *(b'list %d' % most for most in range(7)),
])
BYTES = st.lists(st.one_of(st.sampled_from(CAREFUL), st.binary(min_size=1, max_size=1)), max_size=12).map(b''.join)


@lru_cache(maxsize=None)
def lines(game: str) -> st.SearchStrategy[bytes]:
    new = st.sampled_from([b'new ' + id.encode('latin-1') for id in [*SMALL[game], *BAD_IDS]])
    fair = st.sampled_from([line.encode('latin-1') for line in [*FAIR[game], *(line for of_game, line, _ in BEGINNING if of_game == game)]])
    line = st.one_of(MOVE, MOVE, MOVE, CALL, CALL, new, fair, st.sampled_from(ODD))
    one_in_twenty = st.sampled_from([b'\r', *[b''] * 19])
    return st.tuples(line, one_in_twenty).map(b''.join)


@st.composite
def saves(draw: st.DrawFn, game: str) -> bytes:
    """A save whose kept values may hold any bytes, and some are damaged."""
    id = draw(st.sampled_from([id for id in SMALL[game] if ':' in id]))
    parameters, _, description = id.encode().partition(b':')
    number = st.integers(0, 2)
    moves = draw(st.lists(st.tuples(st.sampled_from([b'R', b'P']), number, number, number), max_size=3))
    records = [
        ('SAVEFILE', COLLECTION), ('VERSION', b'1'), ('GAME', GAMES[game].name.encode()), ('PARAMS', b'3'), ('CPARAMS', parameters),
        ('SEED', draw(BYTES)), ('DESC', description), ('AUXINFO', draw(BYTES)), ('UI', draw(BYTES)),
        ('NSTATES', b'%d' % (len(moves) + 1)), ('STATEPOS', b'%d' % draw(st.integers(1, len(moves) + 1))),
        *(('MOVE', b'%s%d,%d,%d' % move) for move in moves),
    ]
    text = b''.join(written(name, value) for name, value in records)
    return text[: -draw(st.integers(2, 40))] if draw(st.integers(0, 9)) == 0 else text


@st.composite
def scripts(draw: st.DrawFn) -> Script:
    """After each line the session is asked for, and after some the board."""
    game = draw(st.sampled_from(['towers', 'unequal']))
    save, words = b'', [game]
    begun = draw(st.sampled_from(['file', 'small', 'small', 'small', 'stored', 'nothing']))
    if begun == 'file':
        save = draw(saves(game))
        words += ['--load', 'old.sav']
    elif begun != 'nothing':
        words += ['--id', draw(st.sampled_from(SMALL[game] if begun == 'small' else stored(game)))]
    words += draw(st.sampled_from([[], ['--save', 'new.sav']]))
    typed = draw(st.lists(lines(game), min_size=4, max_size=14))
    if draw(st.integers(0, 9)) == 0:
        typed[:0] = [b'new 3:3//////3/////' if game == 'towers' else b'solve', *SOLVED]
    some: List[List[bytes]] = [[], [], BOARD, [*BOARD, b'completable'], [*BOARD, b'hint'], [*BOARD, b'completable', b'hint', b'hint marks', b'grade']]
    groups = [[line, *SESSION, *draw(st.sampled_from(some))] for line in typed]
    return Script(game, words, save, groups, draw(st.sampled_from([[], [b''], [b'quit'], [b'quit', b'undo', b'board']])))


@pytest.mark.parametrize('part', range(PARTS))
def test_scripts(pair: Pair, part: int) -> None:
    @seed(part)
    @settings(max_examples=EACH, database=None, deadline=None, suppress_health_check=list(HealthCheck))
    @given(scripts())
    def agree(script: Script) -> None:
        expect_agreement(pair, script)

    agree()
