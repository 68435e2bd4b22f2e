"""Numbers that are chosen before their squares: presses that come at once, and a finger. Transcripts in `played` have the rest."""

import json

from tests.page.playing import LAPTOP, PHONE, TOWERS, Player
from tests.page.seen import at

#: The setting.
SWITCH = '{switch Number first, then squares}'


def test_pressed_at_once(player: Player) -> None:
    """Presses that come before the first one is answered: each finds what those before it have left."""
    player.sit(TOWERS, LAPTOP)
    player.look(SWITCH + '{2}', told='Each square that you press gets 2.')
    presses = 'for (let left = 3; left; left--) node.dispatchEvent(new MouseEvent("click", {bubbles: true}))'
    player.value(f'((node) => {{ {presses}; return true; }})(document.querySelector({json.dumps(at(1, 1))}))')
    player.keeps([3])
    player.moved('R1,1,2 R1,1,0 R1,1,2')


def test_number_first_by_finger(piped: Player) -> None:
    """A short touch sets the number, and a long one a mark; of the click that may come after it nothing more is done."""
    piped.sit(TOWERS, PHONE)
    piped.look(SWITCH + '{tap 2}', told='Each square that you press gets 2.')
    piped.look('{tap 0,0}{tap 1,1}', 'row 2, column 2, 2')
    piped.look('{hold 2,2}', 'row 3, column 3, empty, marks 2')
    piped.look('{tap 2}', told='Pressing a square no longer', moved='R0,0,2 R1,1,2 P2,2,2')
