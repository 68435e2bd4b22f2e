"""A browser without a window: Chromium, told what to do by its own protocol."""

import base64
import json
from typing import Any, Dict, List, Mapping, Optional

from tests.harness.driver import BLANK, LEFT, RIGHT, SECONDS, PageLeft, Told
from tests.harness.room import Room
from tests.harness.skips import need

#: It asks nobody for anything, and takes what memory there is.
WORDS = ['--headless', '--no-sandbox', '--disable-gpu', '--disable-dev-shm-usage', '--no-first-run', '--remote-debugging-port=0']

#: How an expression fails whose page goes away before it is worth something.
LEAVING = ['Inspected target navigated or closed', 'Execution context was destroyed.', 'Cannot find context with specified id']

#: Keys that are no letters: what a page calls them, and their numbers.
KEYS = {'Enter': 13, 'Escape': 27, 'Backspace': 8, 'Delete': 46, 'Tab': 9, 'ArrowLeft': 37, 'ArrowUp': 38, 'ArrowRight': 39, 'ArrowDown': 40}

#: As the protocol counts them.
CONTROL = 2

#: So wide is no phone.
PHONES = 500

#: The names of the buttons of a mouse.
BUTTONS = {LEFT: 'left', RIGHT: 'right'}


class Browser(Told):
    """One window, and those that are opened from it. Where there is no browser the case is skipped."""

    def __init__(self, room: Room, seconds: float = SECONDS) -> None:
        need('chromium')
        #: The complaints of the pages: errors of scripts, and refusals of their policies.
        self.complaints: List[str] = []
        #: The questions of the browser for a page, as `beforeunload`. The answer is yes.
        self.questions: List[str] = []
        self._session: Mapping[str, str] = {}
        #: Each window, and how it is asked.
        self._windows: Dict[str, Mapping[str, str]] = {}
        super().__init__(room, ['chromium', *WORDS, f'--user-data-dir={room.path}/profile'], seconds)

    def _begin(self) -> None:
        self._window = self.open()

    def open(self) -> str:
        window: str = self._ask('Target.createTarget', {}, {'url': BLANK})['targetId']
        attached = self._ask('Target.attachToTarget', {}, {'targetId': window, 'flatten': True})
        self._windows[window] = {'sessionId': attached['sessionId']}
        self.turn_to(window)
        for what in ('Page.enable', 'Runtime.enable', 'Log.enable'):
            self.ask(what)
        return window

    def turn_to(self, tab: str) -> None:
        self._window, self._session = tab, self._windows[tab]

    def close_tab(self) -> None:
        self._ask('Target.closeTarget', {}, {'targetId': self._window})

    @property
    def tab(self) -> str:
        return self._window

    def show(self, page: str) -> None:
        """Shows the page of a file, and waits until it is all there."""
        self.go(f'file://{page}')
        self.wait_for(f'document.URL + document.readyState === {json.dumps(f"file://{page}complete")}')

    def go(self, url: str) -> None:
        self.ask('Page.navigate', url=url)
        if url == BLANK:
            # Chromium may forget the next page, where this one isn't there yet and the one before asks whether it may be left.
            self.wait_for(f'document.URL === "{BLANK}"')

    # --- what a player does ---

    def press(self, *keys: str, control: bool = False) -> None:
        for key in keys:
            how: Dict[str, Any] = {'key': key, 'modifiers': CONTROL if control else 0, 'windowsVirtualKeyCode': KEYS.get(key, ord(key[0].upper()))}
            text = '\r' if key == 'Enter' else '' if key in KEYS or control else key
            self.ask('Input.dispatchKeyEvent', type='keyDown', text=text, **how)
            self.ask('Input.dispatchKeyEvent', type='keyUp', **how)

    def type(self, text: str) -> None:
        """As at once, where the focus is."""
        self.ask('Input.insertText', text=text)

    def click(self, selector: str, button: int = LEFT) -> None:
        x, y = self.middle(selector)
        for kind, pressed, count in (('mouseMoved', 'none', 0), ('mousePressed', BUTTONS[button], 1), ('mouseReleased', BUTTONS[button], 1)):
            self.ask('Input.dispatchMouseEvent', type=kind, x=x, y=y, button=pressed, clickCount=count)

    def tap(self, selector: str, milliseconds: int = 0) -> None:
        x, y = self.middle(selector, milliseconds == 0)
        self.ask('Input.dispatchTouchEvent', type='touchStart', touchPoints=[{'x': x, 'y': y}])
        if milliseconds:
            self.value(f'new Promise((done) => setTimeout(done, {milliseconds}))')
        self.ask('Input.dispatchTouchEvent', type='touchEnd', touchPoints=[])

    # --- how it looks ---

    def plain(self) -> None:
        """As it is at first."""
        self.ask('Emulation.clearDeviceMetricsOverride')
        self.ask('Emulation.setTouchEmulationEnabled', enabled=False)
        self.media()

    def size(self, width: int, height: int) -> None:
        """A narrow window is a phone's, which is touched."""
        self.ask('Emulation.setDeviceMetricsOverride', width=width, height=height, deviceScaleFactor=1, mobile=width < PHONES)
        self.ask('Emulation.setTouchEmulationEnabled', enabled=width < PHONES)

    def media(self, kind: str = '', features: Optional[Mapping[str, str]] = None) -> None:
        """The medium of the page, as `print`, and the user's preferences."""
        self.ask('Emulation.setEmulatedMedia', media=kind, features=[{'name': name, 'value': value} for name, value in (features or {}).items()])

    def picture(self) -> bytes:
        """A picture of the page, in PNG."""
        return base64.b64decode(self.ask('Page.captureScreenshot', format='png')['data'])

    def printed(self) -> bytes:
        """The page in PDF, on the paper that it names itself."""
        return base64.b64decode(self.ask('Page.printToPDF', preferCSSPageSize=True, printBackground=False)['data'])

    def value(self, expression: str) -> Any:
        found = self.ask('Runtime.evaluate', expression=f'(async () => ({expression}))()', returnByValue=True, awaitPromise=True)
        assert 'exceptionDetails' not in found, found
        return found['result'].get('value')

    def ask(self, method: str, **parameters: Any) -> Mapping[str, Any]:
        """Has the window do something, by the names of Chromium's protocol."""
        return self._ask(method, self._session, parameters)

    def _ask(self, method: str, session: Mapping[str, str], parameters: Mapping[str, Any]) -> Mapping[str, Any]:
        answer = self._answer(self._tell(method, parameters, **session))
        if answer.get('error', {}).get('message') in LEAVING:
            raise PageLeft(f'{method}: {answer["error"]}')
        assert 'error' not in answer, f'{method}: {answer["error"]}'
        result: Mapping[str, Any] = answer['result']
        return result

    def _note(self, message: Mapping[str, Any]) -> None:
        told = message.get('params', {})
        if message.get('method') == 'Page.javascriptDialogOpening':
            self.questions.append(told['type'])
            self._tell('Page.handleJavaScriptDialog', {'accept': True}, sessionId=message['sessionId'])
        if message.get('method') == 'Runtime.exceptionThrown':
            details = told['exceptionDetails']
            self.complaints.append(str(details.get('exception', {}).get('description', details['text'])))
        if message.get('method') == 'Log.entryAdded' and told['entry']['level'] == 'error':
            self.complaints.append(f'{told["entry"]["text"]} {told["entry"].get("url", "")}')
