"""The setter's desk: puzzles are typed in, by keys and with a finger, and what is said of them; drafts; how it begins and ends."""

import json
from typing import Any, Dict, List, Tuple

import pytest

from playing.games import stored
from playing.program import Program
from tests.conftest import Programs
from tests.page.playing import LAPTOP, PHONE, SMALL, TOWERS, UNEQUAL, Player
from tests.page.seen import at
from tests.page.test_keyboard import send

NONE, ONE, SEVERAL, BLANK = '✗ No solution', '✓ Exactly one solution', '≥2 Several solutions', 'Type in a printed puzzle'

#: The neighbours of a square: the key that goes there, and the button of the sign.
WAYS = {(-1, 0): ('ArrowLeft', 'left'), (0, -1): ('ArrowUp', 'above'), (0, 1): ('ArrowDown', 'below'), (1, 0): ('ArrowRight', 'right')}

#: A draft that another version may have kept.
UNREAD = '{"turn":9,"format":2}'


def sit(player: Player, link: str, window: Tuple[int, int] = LAPTOP, size: int = 3) -> None:
    """At the desk, with a board without items."""
    player.sit(link, window)
    player.look('{menu Check or set a puzzle}', ruled=BLANK)
    if size != 3:
        player.write('#desk-size', str(size))
        player.has(size**2, '.square')


def items(programs: Programs, game: str, id: str) -> Dict[str, Any]:
    """The board of a puzzle, as the program tells it."""
    with Program(programs.objects, game, ['--id', id]) as program:
        return dict(program.first.board.told) if program.first.board else {}


def draft(player: Player, game: str) -> Dict[str, Any]:
    """The kept members of a draft."""
    return dict(json.loads(player.value(f'localStorage["puzzles:draft:{game}"]')))


TYPED = [('towers', 'keys', LAPTOP), ('unequal', 'keys', LAPTOP), ('towers', 'finger', PHONE), ('unequal', 'finger', SMALL)]


@pytest.mark.parametrize(
    ('game', 'how', 'window'), [pytest.param(*row, marks=[] if at % 3 else pytest.mark.always, id=f'{row[0]} by {row[1]}') for at, row in enumerate(TYPED)]
)
def test_typed(player: Player, programs: Programs, game: str, how: str, window: Tuple[int, int]) -> None:
    """A printed puzzle of five by five. It has one solution once all is there, and is played then, as a game of the list."""
    id = stored(game, 5, 'x')[0]
    told = items(programs, game, id)
    sit(player, TOWERS if game == 'towers' else UNEQUAL, window, 5)
    for x, y, number in places(told):
        player.put(how, x, y, number)
    for (x, y), way in ends(told):
        if how == 'keys':
            player.go_to(x, y)
            key = WAYS[way][0]
            send(player, {'key': key, 'code': key, 'shiftKey': True})
        else:
            player.touch(how, at(x, y))
            player.touch(how, f'#signs [data-do={WAYS[way][1]}]')
    player.look('', ruled=ONE)
    plain = id[0] + id[id.index(':') :]
    assert draft(player, game)['ids'][-1] == plain
    player.look('{Play}', called=f'{game.capitalize()} 5×5')
    assert player.kept()[0]['id'] == plain


def places(told: Dict[str, Any]) -> List[Tuple[int, int, int]]:
    """Each clue and each given: where it is, and its number."""
    size = told['size']
    return [(clue['x'], clue['y'], clue['clue']) for clue in told['clues']] + [(at % size, at // size, number) for at, number in enumerate(told['givens']) if number]


def ends(told: Dict[str, Any]) -> List[Tuple[Tuple[int, int], Tuple[int, int]]]:
    """Each sign: the greater square, and where the other one is."""
    size, signs = told['size'], [(sign['greater'], sign['less']) for sign in told['signs']]
    return [((greater % size, greater // size), (less % size - greater % size, less // size - greater // size)) for greater, less in signs]


def test_sign_beside_its_middle(piped: Player) -> None:
    """A sign that is wrong has its mark beside it: a finger between the two is on the sign, and not on the square."""
    sit(piped, UNEQUAL, PHONE, 4)
    piped.look('{tap 1,3}{tap 4}{tap [data-sign="9-13"]}', 'row 3, column 2, empty, greater than below, wrong..', ruled=NONE)
    piped.look('{tap [data-sign="9-13"]}', 'row 3, column 2, empty, less than below..', ruled=SEVERAL)


#: Keys at the chosen square, what this is called then, and where it is said that the sign stands.
READ = [
    ('<', 'less than right', 'r1c3 < r1c4'),
    ('>', 'greater than right', 'r1c3 > r1c4'),
    ('v', 'greater than right, greater than below', 'r1c3 > r2c3'),
    ('^', 'greater than right, less than below', 'r1c3 < r2c3'),
    ('^', 'greater than right', 'no sign between r1c3 and r2c3'),
]


def test_sign_where_it_is_read(player: Player) -> None:
    """Typed from left to right it stands right of the square, or below it; where no square is there that is said."""
    sit(player, UNEQUAL, size=4)
    player.go_to(2, 0)
    for key, name, said in READ:
        send(player, {'key': key})
        player.look('', f'row 1, column 3, empty, {name}', counts=said)
    player.go_to(3, 0)
    send(player, {'key': '<'})
    player.look('', told='No square is there: < and > stand right of the chosen square, ^ and v below it.')
    player.look('{[data-sign="2-3"]}', counts='r1c3 < r1c4')


def test_reload(player: Player) -> None:
    """It stays at the desk, with the other game's draft; once that is left it stays at the game."""
    sit(player, TOWERS)
    player.look('{#desk-game = unequal}', counts='0 signs')
    player.look('{0,0}2', ruled=SEVERAL)
    player.driver.reload('document.querySelector("[data-place]")')
    player.look('', counts='0 signs · 1 given', ruled=SEVERAL)
    player.look('{Close}', called='Towers 3×3')
    player.driver.reload('document.querySelector("[data-place]")')
    player.look('', called='Towers 3×3', is_gone='#verdict')


def test_first_screen(piped: Player) -> None:
    """On a small phone one needn't scroll to what the verdict leads to."""
    for link in (TOWERS, 'unequal-9-easy-7'):
        piped.sit(link, (360, 640))
        piped.look('{menu Check or set a puzzle}', ruled=BLANK)
        piped.look('{More}{My game}', ruled=ONE, grounds='grade')
        piped.driver.wait_for('[...document.querySelectorAll("#by-verdict button")].every((node) => node.getBoundingClientRect().bottom <= innerHeight)')
