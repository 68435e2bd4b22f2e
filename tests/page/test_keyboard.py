"""Keyboards of other languages and of Macs; and where the focus is after a button that is gone once it was pressed."""

import json
from typing import Any, Dict, List, NamedTuple

import pytest

from tests.harness import by_name
from tests.page.playing import LAPTOP, TOWERS, Player

EMPTY, ONE, TWO = (f'row 1, column 1, {content}' for content in ('empty', '1', '2'))


class Pressed(NamedTuple):
    """A key as a browser tells of it, where the first square has this number, and what the square is called then."""

    name: str
    key: str
    code: str
    called: str
    before: str = '1'
    more: Dict[str, bool] = {}
    #: A part of the sentence that is said before the key: a hint that comes later than it would choose another square.
    said: str = ''


SHIFT, CONTROL, COMMAND = {'shiftKey': True}, {'ctrlKey': True}, {'metaKey': True}

PRESSED: List[Pressed] = [
    Pressed('2 in French', 'é', 'Digit2', TWO),
    Pressed('2 in French with Shift', '2', 'Digit2', TWO, more=SHIFT),
    Pressed('0 in French', 'à', 'Digit0', EMPTY),
    Pressed('2 in Arabic', '٢', 'Digit2', TWO),
    Pressed('2 in Persian', '۲', 'Digit2', TWO),
    Pressed('a sign in English', '@', 'Digit2', ONE, more=SHIFT),
    Pressed('2 where another layout has it', '2', 'Digit7', TWO),
    Pressed('u in Greek', 'υ', 'KeyU', EMPTY),
    Pressed('u where French has it', 'u', 'KeyU', EMPTY),
    Pressed('x in Russian, after the steps of a hint', 'ч', 'KeyX', f'{EMPTY}, marks 1', '1uhh', said='So r1c1 is 1'),
    Pressed('Ctrl-Z', 'z', 'KeyZ', EMPTY, more=CONTROL),
    Pressed('Ctrl-Z with capitals locked', 'Z', 'KeyZ', EMPTY, more=CONTROL),
    Pressed('Ctrl-Z in Russian', 'я', 'KeyZ', EMPTY, more=CONTROL),
    Pressed('Ctrl-Z in French', 'z', 'KeyW', EMPTY, more=CONTROL),
    Pressed('Ctrl-Shift-Z', 'Z', 'KeyZ', TWO, '2u', {**CONTROL, **SHIFT}),
    Pressed('Ctrl-Y', 'y', 'KeyY', TWO, '2u', CONTROL),
    Pressed('Cmd-Z', 'z', 'KeyZ', EMPTY, more=COMMAND),
    Pressed('Shift-Cmd-Z', 'z', 'KeyZ', TWO, '2u', {**COMMAND, **SHIFT}),
    Pressed('Cmd-2, which is the browser’s', '2', 'Digit2', ONE, more=COMMAND),
    Pressed('Alt-2, which is the browser’s', '2', 'Digit2', ONE, more={'altKey': True}),
]


@pytest.mark.parametrize('pressed', PRESSED, ids=by_name)
def test_other_keyboards(player: Player, pressed: Pressed) -> None:
    """A digit counts by the place of its key where the key has another sign; undo and redo have the keys of each system."""
    player.sit(TOWERS, LAPTOP)
    player.look(pressed.before, EMPTY if 'u' in pressed.before else ONE, told=pressed.said)
    send(player, {'key': pressed.key, 'code': pressed.code, **pressed.more})
    # A mark in the next square comes after whatever that key has done.
    player.look('<right>p3', 'row 1, column 2, empty, marks 3')
    assert player.name('row 1, column 1') == pressed.called


def send(player: Player, event: Dict[str, Any]) -> None:
    told = json.dumps({**event, 'bubbles': True, 'cancelable': True})
    player.value(f'document.activeElement.dispatchEvent(new KeyboardEvent("keydown", {told}))')
