"""Standard input, standard output and the file to load fail, call by call."""

from typing import Dict, List

from tests.faults.memory import GAME_SAVE
from tests.faults.rounds import Round, Rounds

FIRST = b"""\
new 3:3//////3/////
move R0,0,1
undo
show
undo
"""
SAVED = b"""\
new 3:3//////3/////
move R0,0,1
move R1,0,2
undo
save
"""
MOVES = b'move R0,0,1\nmove R1,0,2\nundo\nstatus'

OUTPUT_ERRORS = ['EIO', 'EINTR', 'ENOSPC', 'ZERO']


def whole_run(rounds: Rounds) -> Round:
    """The run in which nothing fails."""
    whole = rounds.run()
    assert whole.wrong_end(0, '') + whole.wrong_left() == [], 'where nothing fails'
    return whole


def wrong_after(found: Round) -> List[str]:
    """The mistakes if a fault had to end the run before the save."""
    wrong = found.wrong_left()
    if found.met.later:
        wrong.append(f'{found.met.later} reads and writes come after')
    if not found.stands:
        wrong.append('the save file has changed')
    return wrong


def wrong_result(found: Round, whole: Round) -> List[str]:
    """The mistakes if all had to be as in the run in which nothing fails."""
    wrong = found.wrong_end(0, '') + found.wrong_left()
    if found.output != whole.output:
        wrong.append('the replies are others')
    if found.after[1:] != whole.after[1:]:
        wrong.append('the save file is another')
    return wrong


def input_fails(rounds: Rounds, whole: Round, piece: int) -> None:
    """Each read fails in turn. The lines that had come whole are answered, and nothing follows."""
    script = rounds.input
    found = rounds.run('input', piece=piece)
    assert found.wrong_end(0, '') + found.wrong_left() == []
    assert wrong_result(found, whole) == [], 'the replies'
    replies: Dict[int, bytes] = {}
    for error in ('EIO', 'EINTR'):
        for at in range(1, found.met.calls + 1):
            lines = script[: (at - 1) * piece].count(b'\n')
            if lines not in replies:
                rounds.input = b''.join(script.splitlines(keepends=True)[:lines])
                replies[lines] = rounds.run().output
                rounds.input = script
            failed = rounds.run('input', at, error, piece=piece)
            wrong = failed.wrong_end(1, 'cannot read the input') + wrong_after(failed)
            if failed.output != replies[lines]:
                wrong.append('the replies are not those to the lines that had come')
            assert wrong == [], f'read {at} fails with {error}'


def output_fails(rounds: Rounds, whole: Round, piece: int) -> None:
    """Each write fails in turn. The bytes written before stand, and nothing follows."""
    found = rounds.run('output', piece=piece)
    assert found.wrong_end(0, '') + found.wrong_left() == []
    assert wrong_result(found, whole) == [], 'the replies'
    for error in OUTPUT_ERRORS:
        for at in range(1, found.met.calls + 1):
            failed = rounds.run('output', at, error, piece=piece)
            wrong = failed.wrong_end(1, 'cannot write the output') + wrong_after(failed)
            if not whole.output.startswith(failed.output):
                wrong.append('what was written is no front of the replies')
            if piece == 1 and len(failed.output) != at - 1:
                wrong.append(f'{len(failed.output)} bytes were written')
            assert wrong == [], f'write {at} fails with {error}'


def load_fails(rounds: Rounds, call: str, piece: int) -> None:
    """Each such call on the file to load fails in turn. Where the failure is no end of it, the file is loaded whole."""
    rounds.put('game.sav', GAME_SAVE)
    rounds.input = MOVES
    # Without a file to save to, these are the calls on the file to load.
    rounds.words = ['towers', '--load', 'game.sav']
    calls = rounds.run(call, piece=piece).met.calls
    assert calls, 'no such call'
    rounds.words = ['towers', '--load', 'game.sav', '--save', 'new.sav']
    whole = whole_run(rounds)
    for error in ('EIO', 'EINTR'):
        for at in range(1, calls + 1):
            failed = rounds.run(call, at, error, piece=piece)
            assert wrong_load(failed, whole, call, error) == [], f'{call} {at} fails with {error}'


def wrong_load(failed: Round, whole: Round, call: str, error: str) -> List[str]:
    if failed.status == 0 and (error == 'EINTR' or call == 'close'):
        return wrong_result(failed, whole)
    wrong = failed.wrong_end(1, 'cannot read the file') + wrong_after(failed)
    return [*wrong, 'there are replies'] if failed.output else wrong
