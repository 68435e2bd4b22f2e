"""Games that are played on the page to their end, by keys, by mouse and with a finger; and what may be done in between, as transcripts in `played`."""

import datetime
from pathlib import Path
from typing import List, Tuple

import pytest

from playing.games import stored
from tests.board.playing import solution
from tests.conftest import Programs
from tests.harness import ID, Driver
from tests.harness.played import Line, transcripts
from tests.page.playing import LAPTOP, PHONE, SMALL, TOWERS, UNEQUAL, Player, squares

#: A stored puzzle, and how it is played: by keys, by mouse or with a finger; and whether the page comes from a server. Two are enough for `make test`.
WHOLE: List[Tuple[str, int, str, Tuple[int, int], bool]] = [
    ('towers', 5, 'keys', LAPTOP, False),
    ('towers', 4, 'mouse', LAPTOP, True),
    ('towers', 4, 'finger', SMALL, False),
    ('unequal', 5, 'keys', LAPTOP, True),
    ('unequal', 4, 'mouse', LAPTOP, False),
    ('unequal', 4, 'finger', PHONE, False),
]


@pytest.mark.parametrize(
    ('game', 'size', 'how', 'window', 'is_served'), [pytest.param(*row, marks=pytest.mark.always if at in (0, 5) else []) for at, row in enumerate(WHOLE)]
)
def test_whole_game(  # pylint: disable=too-many-arguments
    driver: Driver, page: object, request: pytest.FixtureRequest, programs: Programs, game: str, size: int, how: str, window: Tuple[int, int], is_served: bool
) -> None:
    """To its end, and the kept game has each move; the next day the browser has it still. A driver without a finger has a mouse."""
    address = request.getfixturevalue('served') if is_served else f'file://{page}'
    id = stored(game, size, 'x')[0]
    numbers, givens = solution(programs.objects, game, id)
    wanted = ' '.join(f'R{x},{y},{number}' for (x, y), number in squares(numbers, givens))
    with Player(driver, address) as player:
        player.sit(f'{game}:{id}', window)
        for (x, y), number in squares(numbers, givens):
            player.put(how, x, y, number)
        player.look('', told='Solved', counts='solved', moved=wanted)
        player.look('{load}', told='Solved', moved=wanted)


#: Transcripts of which `make test` has enough.
ALWAYS = [
    'course: a player who comes for the first time is offered the course in a line that goes away with the first move; it is offered to nobody again',
    'desk: several, none and one, with their grounds; the steps on the board; and each change is undone',
    'games: a hint in three presses: where to look, the step and what it shows, the number',
    'games: keys are those of the board in a terminal',
    'number_first: each square that is pressed gets the number, until it is pressed once more; where it stands already it goes out again',
]


@pytest.mark.parametrize(
    'lines', [one._replace(marks=[pytest.mark.always] if one.id in ALWAYS else []) for one in transcripts(Path(__file__).with_name('played'))]
)
def test_played(player: Player, lines: List[Line]) -> None:
    player.play(lines)


def test_new_games(player: Player) -> None:
    """By size and grade, by a number, by an ID or a link."""
    player.sit(TOWERS, PHONE)
    player.begin('Unequal 6×6', game='unequal', size='6', grade='k')
    player.look('', counts='tricky')
    player.look('n', is_shown='#fresh')
    player.look('{Today’s game}', told=f'Unequal, tricky 6, number {datetime.date.today():%Y%m%d}.', closes='#fresh')
    player.begin('Towers 5×5', game='towers', size='5', grade='e', number='020261126')
    for text in ('number 20261126.', '#towers-5-easy-20261126'):
        player.look('i', reads=text, leaves='#page')
    for id, title in [(ID, 'Towers 3×3'), ('unequal-4-easy-7', 'Unequal 4×4'), (f'https://a.example/p#{UNEQUAL}', 'Unequal 3×3'), ('4!7', 'Unequal 4×4')]:
        player.begin(title, id=id)
