"""Both checkers refuse a file that is no certificate with a sentence and the status 2, and one that shows nothing with 1. Nothing shows a traceback."""

import json
import os
import resource
import sys
from typing import Any, Dict, List

import pytest

from tests.certificates.checking import NODE, PYTHON, both, node
from tests.harness import ID, TOP, Room, named, run

#: A certificate of the small game, by hand: by its clues 3 the first row and column are 1 2 3, and the rest follows line by line.
STEPS: List[Any] = [
    ['clue', 0, [[0, [2, 3]], [3, [1, 3]], [6, [1, 2]]]],
    ['clue', 6, [[1, [1, 3]], [2, [1, 2]]]],
    ['line', 5, [[5, [3]], [8, [3]]]],
    ['line', 1, [[4, [1, 2]], [5, [2]]]],
    ['line', 4, [[7, [2, 3]]]],
    ['line', 2, [[8, [1]]]],
]
GOOD: Dict[str, Any] = {'game': 'towers', 'id': ID, 'answer': 'one', 'solutions': [[1, 2, 3, 2, 3, 1, 3, 1, 2]], 'steps': STEPS}
TEXT = json.dumps(GOOD, separators=(',', ':'))
FIRST = '"clue",0,'
assert FIRST in TEXT


def other(**members: Any) -> str:
    return json.dumps({**GOOD, **members})


def first(written: str) -> str:
    """The place of the first step written otherwise."""
    return TEXT.replace(FIRST, f'"clue",{written},', 1)


def step(*members: Any) -> str:
    return other(steps=[list(members), *STEPS])


def unequal(description: str) -> str:
    return other(game='unequal', id=f'3:{description}')


#: By two clues of 3 side by side no first number of the row is possible.
CROSSED: List[Any] = [['clue', 0, [[0, [2, 3]], [3, [1, 3]], [6, [1, 2]]]], ['clue', 1, [[1, [2, 3]], [4, [1, 3]], [7, [1, 2]]]], ['line', 0, [[0, [1]]]]]

#: Python reads lists that are nested some 1,000 deep.
DEEP = 4_000

#: The texts that are checked, and their status.
INPUTS = [
    ('good', TEXT, 0),
    ('blanks, and lines of another system', f'\n {TEXT.replace(",", " , ")}\t\r\n\r\n', 0),
    ('a letter', other(id=f'3de{ID[1:]}'), 0),
    ('nothing', '', 2),
    ('empty lines', '\n\n', 2),
    ('no JSON', 'a word', 2),
    ('a picture', '\x89PNG\r\n', 2),
    ('a list', '[]', 2),
    ('a number', '7', 2),
    ('nested 10,000 deep', '[' * 10_000 + ']' * 10_000, 2),
    ('steps nested 10,000 deep', other(steps=0).replace('0}', '[' * 10_000 + ']' * 10_000 + '}'), 2),
    ('suppositions nested 5,000 deep', other(steps=0).replace('0}', '[["suppose",0,1,' * 5_000 + '[]' + ']]' * 5_000 + '}'), 2),
    ('suppositions nested 150 deep', other(steps=0).replace('0}', '[["suppose",0,1,' * 150 + '[]' + ']]' * 150 + '}'), 2),
    ('cut', TEXT[:-1], 2),
    ('more behind it', f'{TEXT}x', 2),
    ('two on a line', TEXT * 2, 2),
    ('a mark of UTF-8', f'\ufeff{TEXT}', 2),
    ('a NUL byte', TEXT.replace('towers', 'towers\0'), 2),
    ('an escape', TEXT.replace('towers', 'towe\\u0072s'), 2),
    ('no ID', json.dumps({name: value for name, value in GOOD.items() if name != 'id'}), 2),
    ('two IDs', TEXT.replace('"id"', '"id":"3:///////////","id"'), 2),
    ('a member that nobody knows', other(grade='e'), 2),
    ('a game that nobody knows', other(game='chess'), 2),
    ('a game that is a list', other(game=['towers']), 2),
    ('a name of the language as a game', other(game='constructor'), 2),
    ('an answer that nobody knows', other(answer='maybe'), 2),
    ('a size of 12', other(id=f'12{ID[1:]}'), 2),
    ('a size of 2', other(id='2:////////'), 2),
    ('a seed', other(id='3!7'), 2),
    ('an ID that is a number', other(id=3), 2),
    ('another letter', other(id=f'3dk{ID[1:]}'), 2),
    ('two letters', other(id=f'3dee{ID[1:]}'), 2),
    ('too few clues', other(id='3:3//////3////'), 2),
    ('a clue of 4', other(id='3:4//////3/////'), 2),
    ('a digit of another script', TEXT.replace('3:3', '3:\u0663'), 2),
    ('two digits that may be one number', other(id='3:3//////3/////,12g'), 2),
    ('a square of 0', other(id='3:3//////3/////,0h'), 2),
    ('too few squares', other(id='3:3//////3/////,h'), 2),
    ('too many squares', other(id='3:3//////3/////,z'), 2),
    ('no squares after a comma', other(id='3:3//////3/////,'), 2),
    ('a long ID', other(id=f'3:{"/" * 5000}'), 2),
    ('a sign off the grid', unequal('0U,0,0,0,0,0,0,0,0,'), 2),
    ('a sign off the side', unequal('0,0,0,0L,0,0,0,0,0,'), 2),
    ('signs that contradict', unequal('0R,0L,0,0,0,0,0,0,0,'), 2),
    ('two empty pieces', unequal('0,0,0,0,0,0,0,0,0,,'), 2),
    ('a piece of 00', unequal('00,0,0,0,0,0,0,0,0,'), 2),
    ('another sign', unequal('0X,0,0,0,0,0,0,0,0,'), 2),
    ('true for a number', first('true'), 2),
    ('null for a number', first('null'), 2),
    ('1.0', first('0.0'), 2),
    ('an exponent', first('0e0'), 2),
    ('a text', first('"0"'), 2),
    ('NaN', first('NaN'), 2),
    ('below 0', first('-1'), 2),
    ('minus 0', first('-0'), 2),
    ('leading zeros', first('00'), 2),
    ('a million digits', first('1' * 1_000_000), 2),
    ('a step off the grid', step('line', 0, [[9, [1]]]), 2),
    ('a line too many', step('line', 6, []), 2),
    ('a place of a clue too many', step('clue', 12, []), 2),
    ('a number above the size', step('line', 0, [[0, [4]]]), 2),
    ('no number', step('line', 0, [[0, [0]]]), 2),
    ('a sign of one square', step('sign', [0], []), 2),
    ('an unknown kind', step('magic', 0, []), 2),
    ('a kind that is a list', step(['line'], 0, []), 2),
    ('a kind of letters', step(list('line'), 0, []), 2),
    ('too long a step', step('line', 0, [], 0), 2),
    ('an empty step', step(), 2),
    ('a step that is a text', other(steps=['line']), 2),
    ('steps that are an object', other(steps={}), 2),
    ('strikes that are an object', step('line', 0, {}), 2),
    ('a short solution', other(solutions=[[1, 2, 3]]), 2),
    ('two solutions of one', other(solutions=GOOD['solutions'] * 2), 2),
    ('a solution of none', other(answer='none'), 2),
    ('a solution with 0', other(solutions=[[0] * 9]), 2),
    ('what is needed is a text', other(needed='all'), 2),
    ('what is needed of none', other(answer='none', solutions=[], needed=[[1] * 9]), 2),
    ('the solution is needed', other(needed=GOOD['solutions']), 1),
    ('a wrong solution', other(solutions=[[1, 3, 2, 2, 1, 3, 3, 2, 1]]), 1),
    ('no steps', other(steps=[]), 1),
    ('none without a contradiction', other(answer='none', solutions=[]), 1),
    ('the same twice', other(answer='several', solutions=GOOD['solutions'] * 2), 1),
    ('a square is emptied', other(steps=[['line', 0, [[0, [1, 2, 3]]]]]), 1),
    ('a clue that is not there', step('clue', 1, [[1, [3]]]), 1),
    ('a sign that is not there', step('sign', [1, 0], [[0, [3]]]), 1),
    ('a square of another line', step('line', 1, [[0, [3]]]), 1),
    ('a branch without an end', step('suppose', 0, 3, []), 1),
    ('a branch of what has gone', other(steps=[STEPS[0], ['suppose', 0, 3, []], *STEPS[1:]]), 0),
    ('a strike of what has gone', other(steps=[*STEPS[:1], *STEPS]), 0),
    ('steps that strike nothing, 100,000 of them', other(steps=[['line', 0, []]] * 100_000 + STEPS), 0),
    ('steps after a contradiction', other(id='3:3/3//////////', answer='none', solutions=[], steps=[*CROSSED, *CROSSED]), 0),
    ('one by a contradiction', other(id='3:3/3//////////', steps=CROSSED), 1),
    ('a step that does not follow after a contradiction', other(id='3:3/3//////////', answer='none', solutions=[], steps=[*CROSSED, ['line', 3, [[1, [3]]]]]), 1),
    ('a clue from the other side', step('clue', 3, [[6, [2, 3]]]), 1),
    ('a clue of a row as that of a column', step('clue', 6, [[3, [1, 3]]]), 1),
    ('a column as a row', step('line', 0, [[3, [1]]]), 1),
    ('the puzzle of a greater size', other(id='4:3////////3///////'), 2),
    ('a solution that is longer', other(solutions=[[*GOOD['solutions'][0], 1]]), 2),
    ('several that are the solution and a wrong one', other(answer='several', solutions=[*GOOD['solutions'], [2, 1, 3, 1, 3, 2, 3, 2, 1]]), 1),
    ('what is needed has a grid too many', other(needed=[GOOD['solutions'][0]] * 3), 1),
    ('what is needed breaks the rows', other(needed=[[2, 1, 3, 1, 2, 3, 3, 1, 2]] * 2), 1),
    ('what is needed twice', other(needed=[]).replace('"needed"', '"needed": [], "needed"'), 2),
    ('steps twice', TEXT.replace('"steps"', '"steps":[],"steps"'), 2),
    ('solutions of none that are an object', other(id='3:3/3//////////', answer='none', solutions={}, steps=CROSSED), 2),
    ('an object in a list', f'[{TEXT}]', 2),
    ('a quote too many', TEXT.replace('"one"', '"one""'), 2),
    ('an object among the strikes', TEXT.replace('[0,[2,3]]', '{"0":[2,3]}', 1), 2),
    ('true for a number that is struck', TEXT.replace('[0,[2,3]]', '[0,[true]]', 1), 2),
    ('a digit of another script in a step', TEXT.replace('"clue",0,', '"clue",\u0660,', 1), 2),
    ('a supposition of two numbers', step('suppose', 0, [2, 3], []), 2),
    ('a supposition without steps', step('suppose', 0, 3), 2),
]


@pytest.mark.parametrize(('text', 'status'), named(INPUTS))
def test_input(room: Room, text: str, status: int) -> None:
    """Word for word alike, but where Python doesn't read what is nested too deep."""
    room.put('certificate', text.encode())
    python, twin = both(room, 'certificate')
    assert python.output == twin.output or text.count('[') > DEEP
    for ended in python, twin:
        assert (ended.status, ended.error) == (status, b''), ended.said[-500:]
        told = ended.output.decode()
        assert told.startswith({1: 'NOT SHOWN by certificate 1 of ', 2: 'NO CERTIFICATE is number '}.get(status, '      3'))
        assert status == 0 or len(told.splitlines()) == 1


def test_files(room: Room) -> None:
    """Files that can't be read; a certificate after one that shows nothing, which is read, and after a line that is none, which isn't."""
    room.make_folder('folder').close()
    lines = [TEXT, other(steps=[]), TEXT]
    room.put('three', '\n'.join(lines).encode())
    room.put('broken', '\n'.join([TEXT, 'a word', TEXT]).encode())
    for name, status, shown, said in (
        ('none', 2, 0, 'NO CERTIFICATE is number 0'), ('folder', 2, 0, 'NO CERTIFICATE is number 0'),
        ('three', 1, 2, 'NOT SHOWN by certificate 2'), ('broken', 2, 1, 'NO CERTIFICATE is number 2'),
    ):  # fmt: skip
        for ended in both(room, name):
            assert (ended.status, ended.error, ended.output.count(b'Exactly one')) == (status, b'', shown), ended.said
            assert f'{said} of \'{name}\': ' in ended.output.decode()


#: Bytes before and behind a certificate, on its line and others, and the status. A line with its end has 16 MiB at most, and blanks of ASCII count alone.
MOST = 16 << 20
LINES = [
    ('as long as can be', b'', b' ' * (MOST - len(TEXT) - 1) + b'\n', 0),
    ('longer', b'', b' ' * (MOST - len(TEXT)) + b'\n', 2),
    ('without an end', b'', b' ' * (MOST - len(TEXT)), 0),
    ('after a long blank line', b' ' * MOST + b'\n', b'', 2),
    ('after 17 MB of blanks', b' ' * 17_000_000, b'', 2),
    ('a blank of another system', b'\xa0\n', b'', 2),
    ('control characters that are blank', b'\x0b\x0c\r\n', b'\n\t \n', 0),
    ('one that is not', b'', b'\n\x1c\n', 2),
    ('another line end', b'', f'\r{TEXT}'.encode(), 2),
    ('a mark of UTF-8', b'\xef\xbb\xbf', b'', 2),
    ('half a surrogate', b'', b'\xed\xa0\x80', 2),
]


@pytest.mark.parametrize(('before', 'after', 'status'), named(LINES))
def test_lines(room: Room, before: bytes, after: bytes, status: int) -> None:
    room.put('certificate', before + TEXT.encode() + after)
    python, twin = both(room, 'certificate')
    assert (python, python.status, python.error) == (twin, status, b''), twin.said[-500:]


def test_closed_output(room: Room) -> None:
    """Behind a pipe that nobody reads they say nothing, with the status that `cat` has there; on a full disk they say so."""
    room.put('three', '\n'.join([TEXT, other(steps=[]), TEXT]).encode())
    for words in [sys.executable, '-I', str(PYTHON)], [node(), str(NODE)]:
        told = run(['bash', '-c', 'exec 3> >(:); wait $!; "$@" >&3; echo $?; "$@" > /dev/full; echo $?', '-', *words, 'three'], room)
        assert (told.status, told.output) == (0, b'141\n2\n'), told.said
        assert told.error.startswith(b'Standard output: ') and told.error.count(b'\n') == 1, told.error


def test_length() -> None:
    """The checker in Python has the lines that documents tell, and imports two modules of its library."""
    lines = PYTHON.read_text(encoding='ascii').splitlines()
    assert [line for line in lines if 'import ' in line] == ['import json', 'import sys']
    for name in ('README.md', 'CHANGELOG.md', 'docs/CERTIFICATES.md', 'docs/TRUST.md', 'man/puzzles-check.6'):
        assert f'{len(lines)} lines' in (TOP / name).read_text(encoding='utf-8'), name


def test_large(room: Room) -> None:
    """100 MB are refused at once, with little memory in Python."""
    room.put('large', b'{')
    os.truncate(f'{room.path}/large', 100_000_000)
    for ended in both(room, 'large', limits={resource.RLIMIT_AS: 200 << 20}):
        assert (ended.status, ended.error, ended.output.count(b'\n')) == (2, b'', 1), ended.said
