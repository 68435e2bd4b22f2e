"""The built program under fire: each request for memory, each read, write, open, flush, rename and close fails in turn. Its answer then
is compared with runs in which nothing fails.

--calls names the program of crates/trial_runs, which makes one call a run. The calls fail by a library that is preloaded, faults.c. Where there is
no C compiler for it, or the program can't be made to load it, all is skipped.
"""

from typing import List

import pytest

from tests.faults import devices, memory, saves
from tests.faults.calls import Calls
from tests.faults.rounds import Rounds
from tests.harness import TOP, FaultLibrary, Room, Skip, by_name, need_root

SCRIPTS = [devices.FIRST, devices.SAVED]

#: The calls of crates/trial_runs in so many parts, which can be tried side by side.
PARTS = 6


@pytest.fixture
def rounds(program: str, room: Room, library: FaultLibrary) -> Rounds:
    return Rounds(room, program, library)


@pytest.mark.parametrize('game', memory.GAMES, ids=by_name)
def test_memory(rounds: Rounds, game: memory.Game) -> None:
    rounds.put('game.sav', memory.GAME_SAVE)
    memory.Refusing(rounds, game).refuse()


@pytest.mark.parametrize('script', SCRIPTS, ids=['first', 'saved'])
@pytest.mark.parametrize('piece', [1, 7, 4096])
def test_input(rounds: Rounds, script: bytes, piece: int) -> None:
    rounds.input = script
    devices.input_fails(rounds, devices.whole_run(rounds), piece)


@pytest.mark.parametrize('script', SCRIPTS, ids=['first', 'saved'])
@pytest.mark.parametrize('piece', [1, 4096])
def test_output(rounds: Rounds, script: bytes, piece: int) -> None:
    rounds.input = script
    devices.output_fails(rounds, devices.whole_run(rounds), piece)


@pytest.mark.parametrize(('call', 'piece'), [('open', 4096), ('read', 16), ('read', 4096), ('close', 4096)])
def test_load(rounds: Rounds, call: str, piece: int) -> None:
    devices.load_fails(rounds, call, piece)


@pytest.mark.parametrize('save', saves.SAVES, ids=by_name)
def test_opened_as_new(rounds: Rounds, save: saves.Save) -> None:
    rounds.input, rounds.target = devices.FIRST, save.target
    saves.opened_as_new(rounds, save)


@pytest.mark.parametrize('save', saves.SAVES, ids=by_name)
@pytest.mark.parametrize(('call', 'errors', 'is_sure'), saves.CALLS, ids=[row[0] for row in saves.CALLS])
def test_save(rounds: Rounds, save: saves.Save, call: str, errors: List[str], is_sure: bool) -> None:
    """A save is cut into its bytes only once, and a killed one into a few pieces."""
    rounds.input, rounds.target = devices.FIRST, save.target
    whole = devices.whole_run(rounds)
    for piece in (4096, 64, 1) if call == 'write' else (4096,):
        saves.calls_fail(rounds, save, whole, call, piece, saves.errors_of(errors, save, piece), is_sure)


def test_another_users_file() -> None:
    """Where there are other users, all files that are saved over are another one's."""
    need_root()


@pytest.mark.parametrize(('is_full', 'part'), [(True, 0), *((False, part) for part in range(PARTS))])
def test_calls(request: pytest.FixtureRequest, room: Room, library: FaultLibrary, is_full: bool, part: int) -> None:
    """The calls on a full history go one after the other."""
    path = request.config.getoption('--calls')
    if not path:
        raise Skip('the program of crates/trial_runs is not named', 'make test-faults, with the kit')
    calls = Calls(room, str(TOP / path), library)
    listed = [(game, call) for game, call in calls.listed() if call.startswith('full-') == is_full]
    assert listed
    for game, call in listed if is_full else listed[part::PARTS]:
        calls.refuse(game, call)
