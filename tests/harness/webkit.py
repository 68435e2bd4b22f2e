"""WebKitGTK, which is the engine of Safari, told what to do by WebDriver: its own WebKitWebDriver listens on a port."""

import contextlib
import http.client
import json
import os
import shutil
import signal
import socket
import subprocess
import time
from typing import Any, Dict, Mapping, Sequence, Tuple

from tests.harness.driver import GONE, LEFT, RIGHT, SECONDS, Driver, PageLeft
from tests.harness.room import Room, Skip

#: The small browser that comes with WebKitGTK; it needs a screen.
MINI_BROWSERS = [f'/usr/lib/x86_64-linux-gnu/webkit2gtk-{version}/MiniBrowser' for version in ('4.1', '4.0')]

SCREEN = ['-screen', '0', '1400x1000x24', '-nolisten', 'tcp']

#: The names in our own environment that would lead it elsewhere than to its room and its screen.
OURS = ('XDG_DATA_HOME', 'XDG_CACHE_HOME', 'XDG_CONFIG_HOME', 'XDG_RUNTIME_DIR', 'WAYLAND_DISPLAY')

#: So many seconds it may take to begin, on a machine that has much else to do.
BEGINS = 600

#: Of an error a driver has to say what it was.
BAD = 400


def free_port() -> int:
    with socket.socket() as probe:
        probe.bind(('127.0.0.1', 0))
        port: int = probe.getsockname()[1]
    return port


def started(words: Sequence[str], **how: Any) -> subprocess.Popen[bytes]:
    return subprocess.Popen(words, stdout=subprocess.DEVNULL, stderr=subprocess.DEVNULL, start_new_session=True, **how)


def on_screen(room: Room) -> Tuple[subprocess.Popen[bytes], Dict[str, str]]:
    """A screen of its own that has begun, and the environment for what runs on it."""
    reading, writing = os.pipe()
    screen = started(['Xvfb', '-displayfd', str(writing), *SCREEN], pass_fds=[writing])
    os.close(writing)
    with os.fdopen(reading) as number:
        display = f':{number.readline().strip()}'
    folders = {name: room.path for name in ('HOME', 'TMPDIR')}
    own = {**folders, 'DISPLAY': display, 'GDK_BACKEND': 'x11', 'WEBKIT_DISABLE_COMPOSITING_MODE': '1', 'LIBGL_ALWAYS_SOFTWARE': '1'}
    return screen, {**{name: text for name, text in os.environ.items() if name not in OURS}, **own}


class WebKit(Driver):
    """A session, on a screen of its own, which nobody sees."""

    # The driver takes actions of a mouse and of keys alone.
    has_touch = False

    # For it the right button stays pressed for ever, and then a page hears of no other press.
    _is_stuck = False

    def __init__(self, room: Room, browser: str, seconds: float = SECONDS) -> None:
        super().__init__(seconds)
        screen, env = on_screen(room)
        self._processes = [screen]
        self._port = free_port()
        self._browser = browser
        self._session = ''
        try:
            self._processes.append(started(['WebKitWebDriver', f'--port={self._port}'], env=env))
            end = time.monotonic() + BEGINS
            while not self._is_up():
                assert time.monotonic() < end, 'the driver does not begin'
                time.sleep(0.02)
            self._begin()
        except BaseException:
            self.end()
            raise

    def go(self, url: str) -> None:
        self._do('url', url=url)

    def back(self) -> None:
        # A question to a page that is about to go may never be answered.
        self._do('back')

    def value(self, expression: str) -> Any:
        return self._do('execute/sync', script=f'return ({expression})', args=[])

    def perform(self, actions: Sequence[Dict[str, Any]]) -> None:
        self._do('actions', actions=list(actions))

    def click(self, selector: str, button: int = LEFT) -> None:
        super().click(selector, button)
        self._is_stuck |= button == RIGHT

    def size(self, width: int, height: int) -> None:
        self._do('window/rect', width=width, height=height)
        inner = self.value('[innerWidth, innerHeight]')
        self._do('window/rect', width=2 * width - inner[0], height=2 * height - inner[1])

    def open(self) -> str:
        tab = str(self._do('window/new', type='tab')['handle'])
        self.turn_to(tab)
        return tab

    def turn_to(self, tab: str) -> None:
        self._do('window', handle=tab)

    def close_tab(self) -> None:
        self._ask('DELETE', 'window')

    @property
    def tab(self) -> str:
        return str(self._ask('GET', 'window'))

    def rest(self) -> None:
        if self._is_stuck:
            self._leave()
            self._begin()
            self._is_stuck = False

    def end(self) -> None:
        """The driver and the screen, and all that they have started."""
        if self._session:
            with contextlib.suppress(Exception):
                self._leave()
        for process in reversed(self._processes):
            with contextlib.suppress(ProcessLookupError):
                os.killpg(process.pid, signal.SIGKILL)
            process.wait()

    def _begin(self) -> None:
        options = {'webkitgtk:browserOptions': {'binary': self._browser, 'args': ['--automation']}}
        self._session = self._request('POST', '/session', {'capabilities': {'alwaysMatch': options}})['sessionId']
        # By itself the driver gives up a script after half a minute.
        self._do('timeouts', script=int(1000 * self._seconds), pageLoad=int(1000 * self._seconds))

    def _leave(self) -> None:
        self._request('DELETE', f'/session/{self._session}')

    def _is_up(self) -> bool:
        assert self._processes[-1].poll() is None, 'the driver has ended'
        try:
            return bool(self._request('GET', '/status')['ready'])
        except OSError:
            return False

    def _do(self, what: str, **parameters: Any) -> Any:
        return self._ask('POST', what, parameters)

    def _ask(self, method: str, what: str, parameters: Any = None) -> Any:
        return self._request(method, f'/session/{self._session}/{what}', parameters)

    def _request(self, method: str, way: str, parameters: Any = None) -> Any:
        with contextlib.closing(http.client.HTTPConnection('127.0.0.1', self._port, timeout=self._seconds)) as connection:
            body = None if parameters is None else json.dumps(parameters)
            connection.request(method, way, body, {'Content-Type': 'application/json'})
            answer = connection.getresponse()
            told: Mapping[str, Any] = json.loads(answer.read() or b'{}')
        value = told.get('value')
        if answer.status >= BAD and isinstance(value, dict) and value.get('error') == GONE:
            raise PageLeft(f'{way}: {told}')
        assert answer.status < BAD, f'{way}: {told}'
        return value


def webkit(room: Room) -> WebKit:
    """Where there is none the case is skipped."""
    found = [path for path in MINI_BROWSERS if os.path.exists(path)]
    if not (found and shutil.which('WebKitWebDriver') and shutil.which('Xvfb')):
        raise Skip('there is no WebKitGTK with its driver and a screen')
    return WebKit(room, found[0])
