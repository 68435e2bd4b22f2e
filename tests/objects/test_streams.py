"""Words, files and streams, as the plain program has them; the games of tests/lines/played, a game line by line, a long game and a long answer."""

import os
import resource
import select
import subprocess
from itertools import takewhile

import pytest

from tests.harness import Room, by_name, run
from tests.harness.game import ID, save_text
from tests.lines.transcripts import Transcript, transcripts
from tests.objects.agreement import BOARD, SESSION, Pair, Script, expect_agreement, expect_alike
from tests.objects.reading import read_answers
from tests.lines import test_games, test_words
from tests.lines.runs import Run

PLAYED = ['towers', '--id', ID, '--save', 'old.sav']

#: A line that is typed more often than that is typed so often.
MOST = 3

#: As many as a history has; and lines behind those that fill it, of which three are refused.
MOST_STATES = 100_000
BEHIND = b'move P0,0,1\nrestart\nsolve\nundo\n'


@pytest.mark.parametrize('row', [*test_words.REFUSED, *test_words.ASKED, *test_games.REFUSED], ids=by_name)
def test_words_alike(pair: Pair, room: Room, row: Run) -> None:
    """Its help is the plain program's, but for the name."""
    for name, content in row.given.items():
        room.put(name, content)
    found, wanted = (run([program, *row.words], room) for program in (pair.objects, pair.plain))
    assert (found.status, found.error.replace(b'puzzles-json', b'puzzles')) == (wanted.status, wanted.error)
    assert bool(found.output) == bool(wanted.output) and ('puzzles-json' in found.said) == ('puzzles' in wanted.said)


@pytest.mark.parametrize('played', transcripts(), ids=by_name)
def test_played(pair: Pair, played: Transcript) -> None:
    """After each line all that it tells agrees with the plain program and a second implementation."""
    lines = takewhile(lambda line: line.typed != 'quit', played.lines)
    typed = [line.typed.encode() for line in lines for _ in range(min(line.times, MOST))]
    groups = [[line, *SESSION, *BOARD, b'completable', b'hint', b'grade'] for line in typed]
    expect_agreement(pair, Script(played.game, [played.game], b'', groups, [b'quit', b'undo']))


def test_closed_input(pair: Pair, room: Room) -> None:
    assert run([pair.objects, *PLAYED], room, closed=[0]) == run([pair.plain, *PLAYED], room, closed=[0])


def test_loaded(pair: Pair) -> None:
    """A save in, all its kept bytes in the reply of `save`, and the same save out."""
    text = save_text(2, 2).replace(b'DESC    ', b'SEED    :256:%s\nDESC    ' % bytes(range(256)))
    script = b'save\nboard\nmove R9,0,1\nundo\n'
    found, plain = pair.run(['towers', '--load', 'old.sav', '--save', 'new.sav'], script, text)
    answers = read_answers(script, found.ended.output)
    expect_alike(found, plain, answers)
    assert answers[0].reply == text


@pytest.mark.parametrize(('name', 'why'), [('no/such.sav', 'no such file or directory'), ('.', 'directory')])
def test_unread(pair: Pair, room: Room, name: str, why: str) -> None:
    """A file that can't be read is named, with the cause in the system's words, after the line that the plain program has of it."""
    words = ['towers', '--load', name]
    plain, found = run([pair.plain, *words], room), run([pair.objects, *words], room)
    assert found._replace(error=plain.error) == plain and plain.error == b'cannot read the file\n'
    first, second, rest = found.error.decode().split('\n')
    assert (f'{first}\n', rest) == (plain.error.decode(), '') and second.startswith(f'{name}: ') and why in second.lower()


def test_line_by_line(pair: Pair) -> None:
    """Each object has come when its line has, and nothing more."""
    with subprocess.Popen([pair.objects, 'towers', '--id', ID], stdin=subprocess.PIPE, stdout=subprocess.PIPE, bufsize=0) as process:
        assert process.stdin and process.stdout
        for line in [b'board', b'', b'move R0,0,1', b'save', b'x' * 5000, b'hint', b'completable', b'undo']:
            process.stdin.write(line + b'\n')
            read_answers(line, first_line(process.stdout.fileno()) if line else b'')
        process.stdin.write(b'quit\n')
        assert process.wait(300) == 0


def first_line(fd: int) -> bytes:
    """The text that has come up to the end of a line, or until it is seen that none comes."""
    came = b''
    while not came.endswith(b'\n') and select.select([fd], [], [], 300)[0]:
        more = os.read(fd, 1 << 16)
        if not more:
            break
        came += more
    return came


def test_long_game(pair: Pair) -> None:
    """A history that is full."""
    found, _ = pair.run(['towers', '--id', ID], b'move P0,0,1\n' * (MOST_STATES - 1) + BEHIND)
    answers = read_answers(BEHIND, b'\n'.join(found.ended.output.split(b'\n')[MOST_STATES - 1:]))
    assert [(answer.found['refused'], answer.found['session']['position']) for answer in answers] == [('HistoryFull', MOST_STATES)] * 3 + [(None, MOST_STATES - 1)]


def test_memory(objects: str, room: Room) -> None:
    """A reply of 16 million lines, in four times the memory that its object has bytes."""
    # As many bytes as a kept value can have in a save that may be loaded.
    seed = b'\n' * (16_777_216 - 1000)
    text = save_text(0).replace(b'DESC    ', b'SEED    :%d:%s\nDESC    ' % (len(seed), seed))
    room.put('long.sav', text)
    session = b'{"game":"Towers","id":"%s","position":1,"states":1,"status":"playing"}' % ID.encode()
    wanted = b'{"refused":null,"reply":["%s"],"session":%s}\n' % (b'","'.join(text.split(b'\n')[:-1]), session)
    ended = run([objects, 'towers', '--load', 'long.sav'], room, input=b'save\n', limits={resource.RLIMIT_AS: 4 * len(wanted)})
    assert ended.status == 0, 'the status'
    assert ended.output == wanted, f'the object has {len(ended.output)} bytes and begins with {ended.output[:60]!r}'
