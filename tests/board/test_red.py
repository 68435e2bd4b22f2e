"""Just the errors that the program tells of a board are red, on a thousand boards in play; no terminal is needed for that."""

import colorsys
import curses
import random
from typing import Any, Iterator, List, Mapping, Set, Tuple

import pytest

from board import desk_picture
from board.layout import Layout, fit
from board.picture import Look, Piece, Style, between, picture
from board.screen import COLOURS, DARK, ON_TINT
from playing.board import Board, Reply
from playing.games import bank
from playing.hint_walk import HintWalk
from playing.program import Program
from playing.steps import Shown
from playing.verdict import Verdict

#: So many puzzles of each game, with so many boards of each.
PUZZLES, BOARDS = 25, 20

WINDOWS = [(24, 80), (43, 132), (60, 200)]


def boards(objects: str, game: str, chosen: random.Random) -> Iterator[Tuple[Board, Reply]]:
    """Boards in play, with what the program answers when it is asked for a hint: right numbers and others, marks, and moves that are taken back."""
    for id in chosen.sample(bank(game), PUZZLES):
        with Program(objects, game, ['--id', id]) as program:
            solution = (program.ask('solutions').solutions or [[]])[0]
            size = round(len(solution) ** 0.5)
            for _ in range(BOARDS):
                for _ in range(chosen.randint(1, size)):
                    cell = chosen.randrange(size * size)
                    number = chosen.choice([solution[cell], solution[cell], chosen.randint(0, size)])
                    line = f'move {chosen.choice("RRRRP")}{cell % size},{cell // size},{number}'
                    program.ask(chosen.choice([line] * 9 + ['undo']))
                board = program.ask('board').board
                assert board
                yield board, program.ask('hint')


def errors(told: Mapping[str, Any], layout: Layout) -> Set[Tuple[int, int]]:
    """Where the errors are on the screen that an object of `board` has."""

    def place(cell: int) -> Tuple[int, int]:
        return cell % told['size'], cell // told['size']

    squares = {layout.centre(place(cell)) for cell in told['errors']}
    clues = {layout.centre((clue['x'], clue['y'])) for clue in told['clues'] if clue['error']}
    return squares | clues | {between(layout, place(sign['greater']), place(sign['less'])) for sign in told['signs'] if sign['error']}


def red(pieces: List[Piece]) -> Set[Tuple[int, int]]:
    """Where red pieces begin, each of which has the sign of a contradiction."""
    found = [piece for piece in pieces if piece.style is Style.WRONG]
    assert all('!' in piece.text for piece in found)
    return {(piece.line, piece.column) for piece in found}


@pytest.mark.parametrize('game', ['towers', 'unequal'])
def test_boards(objects: str, game: str) -> None:
    chosen, seen = random.Random(88), set()
    for board, reply in boards(objects, game, chosen):
        layout = fit(board.size, game == 'towers', *chosen.choice(WINDOWS))
        assert layout and reply.hint
        wanted, cursor = errors(board.told, layout), chosen.choice(board.squares)
        walk = HintWalk(reply.hint, board)
        parts = [] if reply.hint.kind == 'nothing' else [walk.look(), *map(walk.part, range(walk.length))]
        for shown in [Shown(), *(part.shown for part in parts)]:
            assert red(picture(board, layout, Look(cursor, has_lines=chosen.random() < 0.5, shown=shown))) == wanted, (board.session.id, board.told)
        # An item that may be the mistake is none.
        assert not red(list(desk_picture.over(layout, Verdict('none', marked=((cursor,),)), cursor)))
        seen.add((bool(wanted), reply.hint.kind))
    assert seen >= {(True, 'contradiction'), (False, 'contradiction'), (False, 'follows')}


def is_red(colour: Tuple[int, int]) -> bool:
    """Whether one of 8, or of 256, is. Of these the first 16 are the terminal's own, and then 216 have six steps of red, green and blue."""
    if colour[1] < 16:
        return colour[0] == curses.COLOR_RED or colour[1] in (1, 9)
    steps = [(colour[1] - 16) // power % 6 for power in (36, 6, 1)]
    hue, saturation, _ = colorsys.rgb_to_hsv(*([0, 95, 135, 175, 215, 255][step] / 255 for step in steps))
    return colour[0] == curses.COLOR_RED or (saturation > 0 and min(hue, 1 - hue) < 0.125)


def test_colours() -> None:
    """No other style has a colour that may be taken for that of contradictions, on either ground."""
    assert [style for style in Style for colours in (COLOURS, ON_TINT) if is_red(colours.get(style, DARK))] == [Style.WRONG] * 2
