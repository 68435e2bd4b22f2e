"""A browser that plays as a person does, by the actions that WebDriver and its younger kin, BiDi, have in common."""

import contextlib
import json
import os
import re
import signal
import subprocess
import time
from pathlib import Path
from typing import Any, Dict, List, Mapping, Sequence, Tuple, TypeVar

import websocket

from tests.harness.room import Room

Point = Tuple[float, float]

#: Keys that are no letters, by what a page calls them, as both protocols have them.
KEYS = {
    'Enter': '\ue007', 'Escape': '\ue00c', 'Backspace': '\ue003', 'Delete': '\ue017', 'Tab': '\ue004',
    'ArrowLeft': '\ue012', 'ArrowRight': '\ue014', 'ArrowUp': '\ue013', 'ArrowDown': '\ue015', 'Control': '\ue009', 'Shift': '\ue008',
}  # fmt: skip

#: The page before any other.
BLANK = 'about:blank'

#: The name of each button of the mouse by its number.
LEFT, RIGHT = 0, 2

#: A long press lasts so many milliseconds: three times as long as it must, since a busy machine begins to count late.
LONG = 1400

#: A press is a long one to our page after 450 milliseconds. While a short one is made that clock stands still: a busy machine may take longer for it.
SHORT = 'window.setTimeout = Object.assign((act, time, ...words) => plain(act, time === 450 ? 2 ** 30 : time, ...words), {plain})'
CLOCK = f'((isShort, plain = window.setTimeout.plain ?? window.setTimeout) => {{ if (isShort) {SHORT}; else window.setTimeout = plain; }})'

#: So many seconds an answer or something that is waited for may take: a limit is for what hangs, and a busy machine is slow.
SECONDS = 120

#: So many seconds a browser may take to begin, on a machine that has much else to do.
BEGINS = 600


#: How WebDriver and BiDi name it where a page goes away before a question to it is answered.
GONE = 'no such frame'


class PageLeft(AssertionError):
    """The page was left while it was asked, as by a reload."""


Own = TypeVar('Own', bound='Driver')


class Driver:
    """One browser. Those below say how it is asked."""

    #: Whether it can be touched with a finger.
    has_touch = True

    def __init__(self, seconds: float = SECONDS) -> None:
        self._seconds = seconds

    # --- how it is asked ---

    def go(self, url: str) -> None:
        raise NotImplementedError

    def value(self, expression: str) -> Any:
        """The value of an expression in the page; of a promise, the value that it promises."""
        raise NotImplementedError

    def perform(self, actions: Sequence[Dict[str, Any]]) -> None:
        """Acts as WebDriver has them. A browser that has each act by itself needs none."""
        raise AssertionError(f'{actions} are not for this browser')

    def size(self, width: int, height: int) -> None:
        """The visible part of the page, as far as the browser can be so small."""
        raise NotImplementedError

    def open(self) -> str:
        """One more tab, which is asked from here on."""
        raise NotImplementedError

    def turn_to(self, tab: str) -> None:
        raise NotImplementedError

    def close_tab(self) -> None:
        raise NotImplementedError

    def rest(self) -> None:
        """Between two cases no button is pressed."""

    def end(self) -> None:
        raise NotImplementedError

    @property
    def tab(self) -> str:
        raise NotImplementedError

    # --- what a player sees and does ---

    def __enter__(self: Own) -> Own:
        return self

    def __exit__(self, *_: object) -> None:
        self.end()

    def wait_for(self, condition: str) -> None:
        """Until an expression, or what it promises, is true in the page, or in the one that comes after it."""
        end = time.monotonic() + self._seconds
        while not self._holds(condition):
            assert time.monotonic() < end, f'{condition} in vain; there is {self.text()!r}'
            time.sleep(0.02)

    def reload(self, condition: str) -> None:
        """Loads the page again, until an expression is true in it. It sees what stands in the browser's store: to a page that is opened anew Chromium may give
        an empty one, where the machine is busy.
        """
        with contextlib.suppress(PageLeft):
            self.value('location.reload()')
        self.wait_for(f'performance.getEntriesByType("navigation")[0].type === "reload" && {condition}')

    def back(self) -> None:
        """Goes back to the page before."""
        self.value('(history.back(), true)')

    def text(self) -> str:
        """All that can be read on the page."""
        return str(self.value('document.body?.innerText'))

    def _holds(self, condition: str) -> bool:
        try:
            return bool(self.value(f'Promise.resolve({condition}).then(Boolean)'))
        except PageLeft:
            return False

    def press(self, *keys: str, control: bool = False) -> None:
        """Keys, one after the other: characters, or names of `KEYS`."""
        actions: List[Dict[str, Any]] = [{'type': 'keyDown', 'value': KEYS['Control']}] if control else []
        for key in keys:
            press = [{'type': kind, 'value': KEYS.get(key, key)} for kind in ('keyDown', 'keyUp')]
            # A capital letter is one with Shift; WebKit's driver doesn't press that by itself.
            shift = [{'type': kind, 'value': KEYS['Shift']} for kind in ('keyDown', 'keyUp')] if len(key) == 1 and key.isupper() else []
            actions += [*shift[:1], *press, *shift[1:]]
        actions += [{'type': 'keyUp', 'value': KEYS['Control']}] if control else []
        self.perform([{'type': 'key', 'id': 'keys', 'actions': actions}])

    def type(self, text: str) -> None:
        self.press(*text)

    def middle(self, selector: str, is_short: bool = True) -> Point:
        """Of an element, which is scrolled to, to be pressed shortly or for long."""
        found = self.value(
            f'(node => {{ {CLOCK}({json.dumps(is_short)}); node.scrollIntoView({{block: "nearest"}}); const box = node.getBoundingClientRect();'
            f' return [box.left + box.width / 2, box.top + box.height / 2] }})(document.querySelector({json.dumps(selector)}))'
        )
        return found[0], found[1]

    def click(self, selector: str, button: int = LEFT) -> None:
        self._point('mouse', selector, button, 0)

    def tap(self, selector: str, milliseconds: int = 0) -> None:
        """With a finger, which may stay for a while."""
        self._point('touch', selector, LEFT, milliseconds)

    def hold(self, selector: str) -> None:
        """A long press, of a finger where the browser takes one."""
        if self.has_touch:
            self.tap(selector, LONG)
        else:
            self._point('mouse', selector, LEFT, LONG)

    def _point(self, kind: str, selector: str, button: int, milliseconds: int) -> None:
        x, y = self.middle(selector, milliseconds == 0)
        actions: List[Dict[str, Any]] = [
            {'type': 'pointerMove', 'x': round(x), 'y': round(y), 'origin': 'viewport', 'duration': 0},
            {'type': 'pointerDown', 'button': button},
            *([{'type': 'pause', 'duration': milliseconds}] if milliseconds else []),
            {'type': 'pointerUp', 'button': button},
        ]
        self.perform([{'type': 'pointer', 'id': kind, 'parameters': {'pointerType': kind}, 'actions': actions}])


class Told(Driver):
    """A browser that is told by messages over a port of its own what to do, as Chromium and Firefox are. It begins with some words and variables."""

    #: The way at its address.
    way = ''

    def __init__(self, room: Room, words: Sequence[str], seconds: float, **env: str) -> None:
        super().__init__(seconds)
        self._number = 0
        said = Path(room.path, 'said')
        with open(said, 'wb') as file:
            # A file that it leaves for a while goes with the room, also where it is killed.
            whole = {**os.environ, 'HOME': room.path, 'TMPDIR': room.path, **env}
            self._process = subprocess.Popen(words, env=whole, stdout=subprocess.DEVNULL, stderr=file, start_new_session=True)
        try:
            self._socket = websocket.create_connection(self._address(said) + self.way, BEGINS, suppress_origin=True)
            self._begin()
            self._socket.settimeout(seconds)
        except BaseException:
            self.end()
            raise

    def _begin(self) -> None:
        """Opens the first tab."""
        raise NotImplementedError

    def _note(self, message: Mapping[str, Any]) -> None:
        """Each message that comes, which may tell an event."""

    def end(self) -> None:
        self.kill()
        self._process.wait()

    def kill(self) -> None:
        """It and all that it has started, at once."""
        with contextlib.suppress(ProcessLookupError):
            os.killpg(self._process.pid, signal.SIGKILL)

    def _address(self, said: Path) -> str:
        """That at which it says it listens."""
        end = time.monotonic() + BEGINS
        while True:
            text = said.read_text(encoding='utf-8', errors='replace')
            found = re.search(r' listening on (ws://\S+)\n', text)
            if found:
                return found[1]
            assert self._process.poll() is None and time.monotonic() < end, f'the browser does not begin: {text}'
            time.sleep(0.02)

    def _tell(self, method: str, parameters: Mapping[str, Any], **more: str) -> int:
        """The number of the message."""
        self._number += 1
        try:
            self._socket.send(json.dumps({'id': self._number, 'method': method, 'params': parameters, **more}))
        except websocket.WebSocketException as error:
            raise ConnectionError(f'{method}: the browser has ended') from error
        return self._number

    def _answer(self, number: int) -> Mapping[str, Any]:
        """The answer to a message. Events come before it."""
        while True:
            try:
                came: Mapping[str, Any] = json.loads(self._socket.recv())
            except (websocket.WebSocketException, ValueError) as error:
                raise ConnectionError('the browser has ended, or says nothing') from error
            self._note(came)
            if came.get('id') == number:
                return came
