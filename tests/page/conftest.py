"""A player at a game, in the browsers that are asked for; the page from a disk and from a server."""

import contextlib
import functools
import http.server
import shutil
import threading
from pathlib import Path
from typing import Callable, Iterator, List

import pytest

from tests.harness import TOP, Browser, Driver, Room, Skip
from tests.harness.firefox import firefox
from tests.harness.webkit import webkit
from tests.page.playing import Player

PAGE = TOP / 'programs' / 'web' / 'puzzles.html'

#: Complaints that scripts of the tests bring about, whenever they come: Chromium doesn't ask where nobody has touched the page, and says so;
#: and a worker is given a module that is none.
MEANT = ['beforeunload', 'Compressed input was truncated']

#: The word of --browsers for all of them; and by which command it is seen that one is there.
ALL = 'all'
BROWSERS = {'chromium': 'chromium', 'firefox': 'firefox-esr', 'webkit': 'WebKitWebDriver'}


def chosen(word: str) -> List[str]:
    """The browsers of a word: all, one by its name, or the first that is there."""
    if word == ALL:
        return list(BROWSERS)
    return [word or next((name for name, command in BROWSERS.items() if shutil.which(command)), 'chromium')]


def pytest_addoption(parser: pytest.Parser) -> None:
    parser.addoption('--browsers', default='', metavar='all|NAME', help='the browsers of the page: chromium, firefox, webkit or all; the first that is there otherwise')
    parser.addoption('--page', default=str(PAGE), metavar='FILE', help='the page, if not the one that is ready')


def pytest_configure(config: pytest.Config) -> None:
    config.addinivalue_line('markers', 'always: a case that runs where no browsers are asked for, too, as by `make test`')


def pytest_collection_modifyitems(config: pytest.Config, items: List[pytest.Item]) -> None:
    """`make test` has some cases of each kind alone: all of them take a minute of a processor."""
    if not config.getoption('--browsers'):
        later = [item for item in items if Path(__file__).parent in item.path.parents and not item.get_closest_marker('always')]
        items[:] = [item for item in items if item not in later]
        config.hook.pytest_deselected(items=later)


def pytest_generate_tests(metafunc: pytest.Metafunc) -> None:
    if 'driver' in metafunc.fixturenames:
        metafunc.parametrize('driver', chosen(metafunc.config.getoption('--browsers')), indirect=True, scope='session')


@pytest.fixture(scope='session')
def page(request: pytest.FixtureRequest) -> Path:
    """The file."""
    path = Path(request.config.getoption('--page'))
    if not path.is_file():
        raise Skip(f'there is no {path}: make web')
    return path


@pytest.fixture(scope='session')
def driver(request: pytest.FixtureRequest) -> Iterator[Driver]:
    """One for all cases of a process. Chromium is the one that other cases have open already."""
    if request.param == 'chromium':
        chromium: Browser = request.getfixturevalue('browser')
        chromium.plain()
        yield chromium
        return
    with Room() as made, (firefox if request.param == 'firefox' else webkit)(made) as driver:
        yield driver


@pytest.fixture
def player(driver: Driver, page: Path) -> Iterator[Player]:
    """At the page from a disk, in a browser that keeps nothing."""
    with Player(driver, f'file://{page}') as made:
        yield made
    driver.rest()


@pytest.fixture
def piped(browser: Browser, page: Path) -> Iterator[Player]:
    """The same in Chromium alone, which can do what others can't. Nothing may be complained of in it."""
    browser.plain()
    browser.complaints.clear()
    with Player(browser, f'file://{page}') as made:
        yield made
        browser.plain()
    assert browser.complaints == []


@pytest.fixture
def scripted(piped: Player, browser: Browser) -> Iterator[Callable[[str], Player]]:
    """Has a script run before each page."""
    known: List[str] = []

    def begin(script: str) -> Player:
        known.append(browser.ask('Page.addScriptToEvaluateOnNewDocument', source=script)['identifier'])
        return piped

    yield begin
    for identifier in known:
        browser.ask('Page.removeScriptToEvaluateOnNewDocument', identifier=identifier)
    piped.load()
    browser.complaints[:] = [text for text in browser.complaints if not any(word in text for word in MEANT)]


@pytest.fixture
def served(page: Path, room: Room) -> Iterator[str]:
    """The address of a server that hands out the page and nothing else."""
    room.put('index.html', page.read_bytes())
    with serving(room.path) as address:
        yield address


@contextlib.contextmanager
def serving(folder: str) -> Iterator[str]:
    """The address of a server that hands out the files of a folder."""
    handler = functools.partial(Quiet, directory=folder)
    with http.server.ThreadingHTTPServer(('127.0.0.1', 0), handler) as server:
        thread = threading.Thread(target=server.serve_forever, kwargs={'poll_interval': 0.05}, daemon=True)
        thread.start()
        yield f'http://127.0.0.1:{server.server_address[1]}/'
        server.shutdown()
        thread.join(10)


class Quiet(http.server.SimpleHTTPRequestHandler):
    """Writes nothing."""

    def log_message(self, *_: object) -> None:  # pylint: disable=arguments-differ
        return
