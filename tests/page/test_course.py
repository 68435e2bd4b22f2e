"""The course: each card by keys, by mouse and with a finger; what is said of a wrong number; and that no kept game is changed by it."""

from typing import Any, Dict, List

import pytest

from playing.cards import CARDS
from tests.harness.cards import SHOWS, Shows
from tests.page.playing import LAPTOP, PHONE, SMALL, TOWERS, UNEQUAL, Player

#: A game of each kind, of which something is done.
PLAYED = {'towers': TOWERS, 'unequal': UNEQUAL}

NEXT = '[data-do=new].card'


def learn(player: Player) -> List[Dict[str, Any]]:
    """Makes a move in the game, and begins the course. The games that are kept then."""
    # With that what is offered at first is gone.
    player.look('2', 'row 1, column 1, 2..')
    kept = player.kept()
    player.look('{menu Learn}', counts='Card 1 of')
    return kept


def without_time(games: List[Dict[str, Any]]) -> List[Dict[str, Any]]:
    return [{name: value for name, value in game.items() if name != 'seconds'} for game in games]


def solve_card(player: Player, how: str, shows: Shows) -> None:
    """Puts the number in, and goes on."""
    if shows.square:
        row, column = shows.square
        player.look('', told='Put the number that follows into the framed square.')
        assert player.chosen() == (column - 1, row - 1)
        player.put(how, column - 1, row - 1, int(shows.number or 0))
        player.look('', f'row {row}, column {column}, {shows.number}..', told='Right.')
    else:
        player.look('', told='Why? shows it.')
    if how == 'keys':
        player.press('<enter>')
    else:
        player.touch(how, NEXT)


WHOLE = [('towers', 'keys', LAPTOP), ('unequal', 'keys', LAPTOP), ('unequal', 'mouse', LAPTOP), ('towers', 'finger', SMALL), ('unequal', 'finger', PHONE)]


@pytest.mark.parametrize(
    ('game', 'how', 'window'), [pytest.param(*row, marks=[] if at else pytest.mark.always, id=f'{row[0]} by {row[1]}') for at, row in enumerate(WHOLE)]
)
def test_whole_course(player: Player, game: str, how: str, window: Any) -> None:
    """To its end: the game before is there again, as it was, and the browser keeps no other one."""
    player.sit(PLAYED[game], window)
    kept = learn(player)
    for number, (card, shows) in enumerate(zip(CARDS[game], SHOWS[game]), 1):
        player.look('', counts=f'Card {number} of {len(SHOWS[game])}', told=card.text.replace("'", '’'))
        solve_card(player, how, shows)
    player.look('', 'row 1, column 1, 2..', counts='1 of')
    assert without_time(player.kept()) == without_time(kept)
    player.look('u', 'row 1, column 1, empty..')
