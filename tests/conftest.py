"""The common part of the tests: the programs, a room for each case, the library by which calls fail, and the last line, which counts."""

import os
import signal
from typing import Any, Dict, Iterator, List, NamedTuple

import pytest

#: The parts that the cases of a folder share, the fixtures there too; and more that says of an assertion what pytest says.
SHARED = ['scripts.place', 'installing.site', 'lines.runs', 'objects.agreement', 'saving.game', 'exchange.sides']
pytest_plugins = [f'tests.{name}' for name in SHARED]
for name in ('board', 'check', 'faults', 'harness', 'objects', 'page', 'sheet'):
    pytest.register_assert_rewrite(f'tests.{name}')

from building.ready import NotReady, ready
from building.record import BUILT
from gating.counts import SKIPS_FAIL, skips_fail
from tests.harness.browser import Browser
from tests.harness.builds import TOP, copy_both
from tests.harness.bytecode import compile_scripts
from tests.harness.faults import FaultLibrary
from tests.harness.mounts import own_mounts
from tests.harness.room import Room
from tests.harness.skips import told
from tests.harness.turns import InTurn, turn


class Programs(NamedTuple):
    """Copies of both programs, in a folder whose name has a blank."""

    puzzles: str
    objects: str


def pytest_addoption(parser: pytest.Parser) -> None:
    for name, what in (('puzzles', 'the program'), ('puzzles-json', 'the one that writes objects'), ('calls', 'that of crates/trial_runs')):
        parser.addoption(f'--{name}', metavar='PATH', help=f'{what}, if not the one that is ready')
    parser.addoption('--long', action='store_true', help='also the cases that take a second or more, and are like those that run without this')
    parser.addoption('--all-certificates', action='store_true', help='certify all puzzles that are stored, and not some of each kind')
    parser.addoption('--kills', type=int, metavar='N', help='how often the board, or a browser in each case of the page, is killed while a game is played')


def pytest_collection_modifyitems(config: pytest.Config, items: List[pytest.Item]) -> None:
    if not config.getoption('--long'):
        later = [item for item in items if item.get_closest_marker('long')]
        items[:] = [item for item in items if item not in later]
        config.hook.pytest_deselected(items=later)
    items.sort(key=lambda item: turn(item.nodeid))


def pytest_xdist_make_scheduler(config: pytest.Config, log: Any) -> InTurn:
    return InTurn(config, log)


def pytest_configure(config: pytest.Config) -> None:
    config.addinivalue_line('markers', 'long: a case that runs with --long alone, as in the gate')
    own_mounts()
    if not hasattr(config, 'workerinput'):
        config.add_cleanup(compile_scripts())
    # The files that were made are taken away if the tests are ended, too.
    signal.signal(signal.SIGTERM, signal.default_int_handler)


def pytest_sessionfinish(session: pytest.Session) -> None:
    if session.exitstatus == 0 and reports(session.config, 'skipped') and skips_fail(by_itself=False):
        session.exitstatus = 1


def pytest_unconfigure(config: pytest.Config) -> None:
    if config.pluginmanager.has_plugin('terminalreporter') and not hasattr(config, 'workerinput') and not config.option.collectonly:
        passed, failed, skipped = (reports(config, *kinds) for kinds in (['passed'], ['failed', 'error'], ['skipped']))
        if skipped:
            print("What can't be tried here, and how many cases:", *told(skipped), sep='\n')
        if skipped and skips_fail(by_itself=False):
            print(f'A skipped case is not tried, so this has failed; {SKIPS_FAIL}=0 lets it pass.')
        print(f'{len(passed)} passed, {len(failed)} failed, {len(skipped)} skipped', flush=True)


def reports(config: pytest.Config, *kinds: str) -> List[Any]:
    """The reports of the cases that ended so."""
    reporter = config.pluginmanager.get_plugin('terminalreporter')
    return [report for kind in kinds for report in reporter.stats.get(kind, [])] if reporter else []


@pytest.fixture(scope='session')
def programs(request: pytest.FixtureRequest) -> Iterator[Programs]:
    try:
        folder = ready().folder
    except NotReady:
        folder = BUILT.folder
    with Room() as room:
        paths = [request.config.getoption(f'--{name}') or str(TOP / folder / name) for name in ('puzzles', 'puzzles-json')]
        yield Programs(*copy_both(room, *paths))


@pytest.fixture
def program(programs: Programs) -> str:
    return programs.puzzles


@pytest.fixture
def objects(programs: Programs) -> str:
    return programs.objects


@pytest.fixture
def room() -> Iterator[Room]:
    """A folder for this case alone."""
    with Room() as made:
        yield made


@pytest.fixture
def stream(request: pytest.FixtureRequest, room: Room) -> Iterator[Dict[str, Any]]:
    """The words for `run` that make a stream fail: the input is a folder, which can't be read; the output is full, or closed, or its reader has gone."""
    with open('/dev/full', 'wb') as full, room.make_folder('no input') as folder:
        reading, writing = os.pipe()
        os.close(reading)
        kinds: Dict[str, Dict[str, Any]] = {
            'unread': {'stdin': folder.fd},
            'full': {'stdout': full.fileno()},
            'closed': {'closed': [1]},
            'gone': {'stdout': writing},
        }
        yield kinds[request.param]
        os.close(writing)


@pytest.fixture(scope='session')
def browser() -> Iterator[Browser]:
    """One for all cases of a process."""
    with Room() as made, Browser(made) as browser:
        yield browser


@pytest.fixture(scope='session')
def library() -> Iterator[FaultLibrary]:
    """Where it can't be had, the case is skipped."""
    with Room() as made:
        yield FaultLibrary(made)
