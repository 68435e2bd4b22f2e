"""The documents for scripts: the clients in docs/clients play, and the examples and the sentences of hints are what the programs write."""

import json
import os
import re
import sys
from operator import itemgetter
from typing import List, Tuple

import pytest

from tests.harness import Room, need, run
from tests.harness.builds import TOP
from tests.harness.game import ID
from tests.objects.agreement import Pair
from tests.objects.forms import Sentence, sentences, told
from tests.second_implementation.fair import fair

CLIENTS = TOP / 'docs' / 'clients'


#: The clients that play by hints, each with the command that runs it and what else it needs.
HINTS = [('hints.py', sys.executable, sys.executable), ('hints.bash', 'bash', 'jq')]

#: The one document that lies above the others.
README = '../README.md'

#: The game, the ID, and what is written of it at its end.
PLAYED = [
    ('towers', ID, '+ 3 - - +\n3 1 2 3 -\n- 2 3 1 -\n- 3 1 2 -\n+ - - - +\nsolved\n'),
    ('unequal', '3:0,0L,0L,0U,0,0,0U,0,0,', '1<2<3\n^ - -\n2 3 1\n^ - -\n3 1 2\nsolved\n'),
    ('towers', '3:///////////', '+ - - - +\n- . . . -\n- . . . -\n- . . . -\n+ - - - +\nplaying\n'),
]


def blocks_of(name: str) -> List[str]:
    document = (TOP / 'docs' / name).read_text(encoding='utf-8')
    return re.findall(r'^```\w*\n(.*?)^```$', document, re.MULTILINE | re.DOTALL)


def unfolded(block: str) -> str:
    """A block with each object on one line: an indented line goes on with the one before."""
    return re.sub(r'\n +', '', block)


def worked(block: str) -> Tuple[List[str], List[str], List[str]]:
    """The run of an example: its words behind `$ `, its lines, each behind `> `, and the objects that it has to write."""
    head, *rest = unfolded(block).splitlines()
    return head.split()[2:], [line[2:] for line in rest if line.startswith('>')], [line for line in rest if not line.startswith('>')]


BLOCKS = {name: blocks_of(name) for name in ('JSON.md', 'SCRIPTING.md', README)}
WORKED = [worked(block) for block in BLOCKS['JSON.md'] if block.startswith('$ puzzles-json ')]


@pytest.fixture(params=HINTS, ids=itemgetter(0))
def client(request: pytest.FixtureRequest) -> List[str]:
    """The words that run it."""
    file, command, needs = request.param
    need(needs)
    return [command, str(CLIENTS / file)]


@pytest.mark.parametrize(('game', 'id', 'wanted'), PLAYED)
def test_client(pair: Pair, room: Room, client: List[str], game: str, id: str, wanted: str) -> None:
    ended = run([*client, pair.objects, game, id], room)
    assert (ended.status, ended.output.decode(errors='replace'), ended.error) == (0, wanted, b'')


def test_refused_id(pair: Pair, room: Room, client: List[str]) -> None:
    ended = run([*client, pair.objects, 'towers', '5#7'], room)
    assert ended.status != 0
    assert b'refused: ForeignSeed' in ended.error


def test_fair(pair: Pair, room: Room) -> None:
    """A block of seeds is a file, made once: each game as the second implementation has it."""
    words = ['bash', str(CLIENTS / 'fair.bash'), pair.objects, 'unequal', '5', 'k']
    room.put('unequal-5dk-4', b'kept\n')
    for block in ('3', '4'):
        ended = run([*words, block, '4'], room)
        assert (ended.status, ended.said) == (0, '')
    made = ''.join(f'5dk:{fair("unequal", 5, "k", seed).description()}\n' for seed in range(12, 16))
    assert (room.names(), room.read('unequal-5dk-3'), room.read('unequal-5dk-4')) == (['unequal-5dk-3', 'unequal-5dk-4'], made.encode(), b'kept\n')


@pytest.mark.parametrize(('words', 'lines', 'objects'), WORKED, ids=[f'{" ".join(words)} > {lines[0]}' for words, lines, _ in WORKED])
def test_objects(pair: Pair, room: Room, words: List[str], lines: List[str], objects: List[str]) -> None:
    """Byte for byte."""
    ended = run([pair.objects, *words], room, input=''.join(f'{line}\n' for line in lines).encode())
    assert (ended.status, ended.error) == (0, b'')
    assert ended.output.decode(errors='replace').splitlines() == objects


@pytest.mark.parametrize('block', [block for name in ('SCRIPTING.md', README) for block in BLOCKS[name] if block.startswith('$ ')])
def test_example(pair: Pair, room: Room, block: str) -> None:
    """A command, and what it writes. A line that ends in a backslash or a bar goes on in the next one, and so does an object in an indented one."""
    command, _, wanted = unfolded(re.sub(r'\\\n *|(?<=\|)\n *', ' ', block[2:])).partition('\n')
    if '| node ' in command:
        need('node')
    for folder in ('docs/clients', 'tests/module', 'programs/web'):
        command = command.replace(folder, str(TOP / folder))
    here = command.replace('python3', sys.executable).replace('programs/linux-amd64/', '')
    env = {'PATH': f"{os.path.dirname(pair.plain)}:{TOP / 'check'}:{os.environ.get('PATH', os.defpath)}", 'PUZZLES_JSON': pair.objects}
    ended = run(['bash', '-c', here], room, env=env)
    assert (ended.output.decode(errors='replace'), ended.error) == (wanted, b'')


def rows_of(text: str) -> List[List[str]]:
    """The cells of the tables of a text, without their heads."""
    return [[cell.strip() for cell in line.strip('|').split('|')] for line in text.splitlines() if re.match(r'\| *[^-| ]', line)]


def test_refusals() -> None:
    """The table of refusals has the names of FORMATS.md that a line can be answered by, each once."""
    formats = (TOP / 'docs' / 'FORMATS.md').read_text(encoding='utf-8').partition('## 10. Faults')[2]
    types = re.findall(r'^- \*\*(\w+)\*\*(.*(?:\n +.*)*)', formats, re.MULTILINE)
    lines = {'IdFault', 'GenFault', 'FairFault', 'PlayFault', 'LineFault'}
    told = {name for kind, text in types if kind in lines for name in re.findall(r'\d\s+([A-Z]\w+)', text)}
    # Sizes and letters of fair games are refused before.
    told -= {'NotOffered'}
    section = (TOP / 'docs' / 'JSON.md').read_text(encoding='utf-8').partition('### refused\n')[2].partition('\n### ')[0]
    names = [name for row in rows_of(section)[1:] for name in row[0].split(', ')]
    assert sorted(names) == sorted(told)


@pytest.mark.parametrize('sentence', sentences(), ids=lambda sentence: f'{sentence.text}')
def test_sentence(pair: Pair, room: Room, sentence: Sentence) -> None:
    asked = 'hint marks' if any(line.startswith('move P') for line in sentence.lines) else 'hint'
    script = ''.join(f'{line}\n' for line in [*sentence.lines, asked]).encode()
    ended = run([pair.objects, sentence.game], room, input=script)
    assert sentence.text in told([json.loads(ended.output.splitlines()[-1])['hint']['text']])
