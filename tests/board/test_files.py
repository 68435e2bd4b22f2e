"""Games that are begun, put away, opened and saved on the board, and the stored puzzles."""

import re
import time
from pathlib import Path
from typing import Set

from playing import games
from playing.state import SOLVED_GAMES, State
from tests.board.playing import BoardFront
from tests.harness import Room


def test_number(front: BoardFront, room: Room) -> None:
    """A fair game tells its number, by which it is played again: typed in the menu, or after the name of the command."""
    with front.window(['unequal', '3!7'], leave='xq') as window:
        window.look('n', ['[trivial]', '[random]'])
        window.look('<right>6<enter>', ['Unequal 6x6   easy', 'Easy 6, number ', 'That number is always this game.'])
        told = re.search(r'number (\d+)\.', ' '.join(window.screen.text()))
        assert told
        window.look('i', ['The ID of this puzzle', f'puzzles-play unequal 6 easy number {told[1]}', 'any key goes back'])
        first = window.screen.text()
        window.look('xn<down>', ['[6]', '[easy]', '> Number [random]'])
        window.look('<right>', [f"[today's: {time.strftime('%Y%m%d')}]"])
        window.look('5<backspace><backspace>', ['[typed: ..]'])
        window.look(told[1], [f'[typed: {told[1]}]'])
        window.look('<enter>', ['0 of'], ['A new game'])
        window.look('i', ['The ID of this puzzle', 'any key goes back'])
        assert window.reads(first), 'the same puzzle'
    with front.window(['unequal'], leave='xq') as window:
        window.look('i', ['The ID of this puzzle', 'any key goes back'])
        assert window.reads(first), 'it goes on, and its number is known'
    with front.window(['unequal', 'number', told[1]], leave='xq') as window:
        window.look('i', ['The ID of this puzzle', 'any key goes back'])
        assert window.reads(first), 'the same puzzle'


def test_kept(front: BoardFront, room: Room) -> None:
    """A game that isn't solved stays, however many come after it; of solved ones the last hundred do."""
    state = State(front.env())
    state.put_away('towers', b'not solved')
    for at in range(SOLVED_GAMES + 3):
        state.put_away('towers', b'%d' % at, b'beside', is_solved=True)
    state.put_away('unequal', b'nor this')
    found = [Path(old.path).read_bytes() for old in state.old_games()]
    assert found == [b'nor this', *(b'%d' % at for at in range(SOLVED_GAMES + 2, 2, -1)), b'not solved'], 'the last one first'
    assert sum(path.endswith('.hints') for path in room.paths()) == SOLVED_GAMES, 'what is beside them goes with them'


def test_unfinished_stays(front: BoardFront, room: Room) -> None:
    """Five moves in a large game outlast eleven small games, solved or not, and the list has them all, no two lines alike."""
    with front.window(['towers', '9', 'hard', 'number', '1'], leave='xq') as window:
        window.look('m1u', ['move 1/2'])
        for seed in range(11):
            window.look(f':fair 3 e {seed}<enter>', ['Towers 3x3'])
            window.look('Sy' if seed % 2 else 'm', ['Filled in by the program.' if seed % 2 else 'move 1/1'])
        window.look(':new 3:3//////3/////<enter>', ['0 of 9'])
        window.look('o', ['Towers 9x9 hard, number 1, ', 'Towers 3x3 easy, number 10, ', 'Towers 3x3 easy, number 9, solved, '])
        rows = [line for line in window.screen.text() if 'Towers' in line]
        assert len(set(line[3:] for line in rows)) == len(rows) == 12, rows
        window.look('<up><up>', ['a file'])
        window.look('<enter>', ['Towers 9x9', 'move 1/2'])
        window.look('i', ['puzzles-play towers 9 hard number 1'])


def test_stored(front: BoardFront, room: Room) -> None:
    """None is offered again until all were."""
    state = State(front.env())
    room.lay('state/puzzles')
    for game in games.GRADES:
        ids = games.stored(game, 9, 'x')
        taken: Set[str] = {str(games.take(state, game, 9, 'x')) for _ in ids}
        assert taken == set(ids), f'each once, {game}'
        assert games.take(state, game, 9, 'x') in taken, 'another one'
