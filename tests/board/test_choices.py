"""New games by words of the command line, IDs that are printed, and what is remembered of either; and the stored puzzles, of the grades that have no fair
games: each has one solution, by the program's own solver."""

import re
import time
from pathlib import Path
from typing import List, Tuple

import pytest

from playing import fair as fair_games
from playing.games import GRADES, SIZES, bank_path, letters, stored
from tests.board.playing import BoardFront
from tests.harness import Room, by_words, run
from tests.second_implementation.fair import fair

TODAY = time.strftime('%Y%m%d')

#: Words, and what each of the IDs that they print is, as a pattern; and how many there are.
IDS: List[Tuple[List[str], str, int]] = [
    (['unequal', '6', 'tricky', '12'], '6dk:.*', 12),
    (['unequal', 'tricky', '6'], '6dk:.*', 1),
    (['towers', '9', 'easy', '20'], '9de:.*', 20),
    (['towers', '3', 'seeded', '2'], '3de:.*', 2),
    (['towers', '4', 'today'], '4de:.*', 1),
    (['towers', '8', 'unreasonable', '50'], '8du:.*', 50),
    ([], '5de:.*', 1),
]


@pytest.mark.parametrize(('words', 'pattern', 'count'), IDS)
def test_ids(front: BoardFront, room: Room, words: List[str], pattern: str, count: int) -> None:
    """One a line, in a pipe, each of them once, and nothing is kept of it."""
    ended = run([front.path, '--ids', *words], room, env=front.env())
    ids = ended.output.decode().splitlines()
    assert (ended.status, ended.error, len(set(ids))) == (0, b'', count)
    assert [id for id in ids if not re.fullmatch(pattern, id)] == []
    assert room.paths() == []


#: Words, and which fair games' IDs they print, from a number on.
NUMBERED: List[Tuple[List[str], str, int, str, int, int]] = [
    (['towers', '6', 'hard', 'number', '20261126', '3'], 'towers', 6, 'h', 20261126, 3),
    (['number', '0', 'unequal', 'trivial', '7'], 'unequal', 7, 't', 0, 1),
    (['unequal', '4', 'number', '18446744073709551615', '2'], 'unequal', 4, 'e', 2**64 - 1, 2),
    (['towers', 'today'], 'towers', 5, 'e', int(TODAY), 1),
    (['unequal', 'TODAY', '6', 'Tricky'], 'unequal', 6, 'k', int(TODAY), 1),
]


@pytest.mark.parametrize(('words', 'game', 'size', 'letter', 'number', 'many'), by_words(NUMBERED))
def test_numbers(front: BoardFront, room: Room, words: List[str], game: str, size: int, letter: str, number: int, many: int) -> None:
    """The same number gives the same game, as the second implementation makes it; after the last one comes 0."""
    ended = run([front.path, '--ids', *sorted(words, key=lambda word: word != game)], room, env=front.env())
    made = [fair(game, size, letter, (number + at) % 2**64).description() for at in range(many)]
    assert ended.output.decode().splitlines() == [f'{size}d{letter}:{description}' for description in made]


def test_few(front: BoardFront, room: Room) -> None:
    """Of easy Towers of size 3 there are as many as Latin squares."""
    ended = run([front.path, '--ids', 'towers', '3', 'easy', '12'], room, env=front.env())
    assert len(set(ended.output.split())) == 12
    ended = run([front.path, '--ids', 'towers', '3', 'easy', '13'], room, env=front.env())
    assert (ended.status, ended.output, ended.error) == (2, b'', b'puzzles-play: There are only 12 of them.\n')


def test_words(front: BoardFront, room: Room) -> None:
    """A game begins, the one before is put away, and the next new one is of the same size and grade, of each game its own."""
    for words, shows in [
        (['unequal', '6', 'extreme'], ['Unequal 6x6', 'extreme', '0 of ']),
        (['towers', '4', 'Hard'], ['Towers 4x4', 'hard', '0 of ', 'Hard 4, number ']),
        (['7'], ['Towers 7x7', 'hard', '0 of ']),
        (['towers', 'today'], ['Towers 7x7', f'Hard 7, number {TODAY}. That number is always this game.']),
    ]:
        front.shows(words, *shows)
    with front.window([], leave='q') as window:
        window.look('n', ['[Towers]', '[7]', '[hard]', '[random]'])
        window.look('<up><up><right>', ['[Unequal]', '[6]', '[extreme]', '200 puzzles, 199 of them new to you'])
        window.look('q', ['Towers 7x7'], ['A new game'])
    with front.window(['--lines'], leave='q<enter>') as window:
        window.look('new today<enter>', [f'new 7 hard number {TODAY}'])
    for path in [path for path in room.paths() if path.endswith('.sav')]:
        room.remove(path)
    for words, shows in [(['unequal'], ['Unequal 6x6', 'extreme']), (['towers'], ['Towers 7x7', 'hard', 'Hard 7, number '])]:
        front.shows(words, *shows, 'A new game. Arrows move, 1-9 put a number in. h: a hint, ?: all keys.')


#: One run takes so many.
PIECE = 200


@pytest.mark.parametrize('game', list(GRADES))
def test_bank(program: str, room: Room, game: str) -> None:
    ids = Path(bank_path(game)).read_text(encoding='ascii').splitlines()
    for first in range(0, len(ids), PIECE):
        piece = ids[first : first + PIECE]
        text = ''.join(f'new {id}\nlist 2\n' for id in piece)
        replies = run([program, game], room, input=text.encode()).output.decode().split('ok\n')[1:]
        assert len(replies) == len(piece)
        assert [(id, reply) for id, reply in zip(piece, replies) if len(reply.split()) != 1 or not reply.strip().isdigit()] == []


@pytest.mark.parametrize('game', list(GRADES))
def test_grades(game: str) -> None:
    """Of each size there are such of the greater grades, but of the last one none of size 9, and of no grade that has fair games."""
    above = [letter for letter in GRADES[game] if letter not in fair_games.OFFERED[game]]
    for size in SIZES:
        there = [letter for letter in GRADES[game] if stored(game, size, letter)]
        assert there == (above if size < 9 else above[:1])
        assert letters(game, size) == [*fair_games.letters(game, size), *there]
