"""The texts for users name the same commands, options, statuses, moves and refusals, and those on puzzles-json its members, its own lines, and the rest.

Commands and refusals are those of the definitions in `specs/`, the rest is what docs/FORMATS.md says.
"""

import re
from typing import Iterable, List

import pytest

from tests.harness import Room, named, run
from tests.objects import schema
from tests.objects.reading import ALL_OWN
from tests.texts import sources
from tests.texts.parts import found, items, part, read

#: Two refusals that are answered by a line of their own, and one that no front end meets.
UNEXPLAINED = {'NoSolution', 'SeveralSolutions', 'NoGame'}

#: The faults by which a command, an ID or a save is refused.
REFUSALS = ['IdFault', 'GenFault', 'PlayFault', 'LoadFault', 'LineFault']


#: The names of each text, as a part of it (its first line, and what the line after it matches) and the pattern of a name there.
KINDS = ['commands', 'options', 'statuses', 'moves']
WHERE = {
    'FORMATS': [
        ('### Commands', '^#', r'^\| `([a-z]+)'),
        ('## 9. The program', '^## ', r'--([a-z]+)'),
        ('## 9. The program', '^## ', r'^\| (\d) \|'),
        ('## 5. Move texts', '^Refused', r'^\| `([A-Z])'),
    ],
    'manual': [
        ('.Ss Commands', '^The moves:', r'^\.It Cm (\w+)'),
        ('.Ss Options', r'^\.Ss', r'^\.It .*Fl -(\w+)'),
        ('.Sh EXIT STATUS', r'^\.Sh', r'^\.It (\d)$'),
        ('The moves:', r'^\.Ss', r'^\.It Cm ([A-Z])'),
    ],
    'help': [
        ('Commands', '^$', r'^  ([a-z]+) '),
        ('Options:', '^$', r'^ .*--([a-z]+)'),
        ('Exit status:', '^$', r'^  (\d) '),
        ('Moves', '^$', r'^  ([A-Z])'),
    ],
}


def said(name: str, text: str) -> List[List[str]]:
    return [found(pattern, part(text, begin, end)) for begin, end, pattern in WHERE[name]]


def wanted() -> List[List[str]]:
    """The names that each kind has to have: commands, options, statuses, moves."""
    return [sources.commands(), *said('FORMATS', read('docs/FORMATS.md'))[1:]]


@pytest.mark.parametrize('name', WHERE)
def test_names(program: str, room: Room, name: str) -> None:
    if name == 'help':
        ended = run([program, '--help'], room)
        assert ended.status == 0
        text = ended.output.decode()
    else:
        text = read({'FORMATS': 'docs/FORMATS.md', 'manual': 'man/puzzles.6'}[name])
    for kind, told, owed in zip(KINDS, said(name, text), wanted()):
        assert set(told) == set(owed) != set(), kind


#: All types of faults. Of two of them no number is in the definitions.
FAULTS = {**sources.faults(), **{name: {'1': name} for name in ('OutOfMemory', 'DeviceFault')}}


@pytest.mark.parametrize('kind', FAULTS)
def test_faults(kind: str) -> None:
    """Each type of fault has the numbers and names of the definitions."""
    told = [item for item in items(part(read('docs/FORMATS.md'), '## 10. Faults', '^## ')) if item.startswith(f'**{kind}**')]
    assert [dict(re.findall(r'(\d+) ([A-Z]\w+)', item)) for item in told] == [FAULTS[kind]] != [{}]


#: The first words of the lines that are puzzles-json's own.
OWN = [line.decode().split()[0] for line in ALL_OWN]

#: The names that the texts owe, by the definitions and the objects, and those that they have: a line of help for each command, a sentence for each refusal.
NAMED = [
    ('the line mode', sources.commands(), ' '.join(found(r"^    '  (\S.*?)  ", read('board/manual.py'))).split()),
    (
        'sentences', {name for kind in REFUSALS for name in sources.faults()[kind].values()} - UNEXPLAINED,
        found(r"'(\w+)':? ?", read('playing/texts.py') + read('playing/shared_texts.py')),
    ),
    ('members', schema.names(), found(r'`(\w+)`', read('docs/JSON.md'))),
    ('own lines', OWN, found(r'\w+', ' '.join(found(r'^### (.*)', read('docs/JSON.md'))))),
    ('members in the manual', schema.names(), found(r'\w+', read('man/puzzles-json.6'))),
    ('own lines in the manual', OWN, found(r'^\.It Cm (\w+)', read('man/puzzles-json.6'))),
    (
        'the line mode in the manual', set(found(r'^    \'  ([a-z]{4,})\b', part(read('board/manual.py'), 'LINES', 'and the program'))) - {'pencil'},
        found(r'\w+', part(read('man/puzzles-play.6'), '.Ss The line mode', r'^\.Sh')),
    ),
]


@pytest.mark.parametrize(('owed', 'told'), named(NAMED))
def test_named(owed: Iterable[str], told: List[str]) -> None:
    assert not set(owed) - set(told)


def test_own_help(program: str, objects: str, room: Room) -> None:
    """It has the options and statuses of the plain program, and the lines and members that are its own."""
    told = []
    for path in (program, objects):
        ended = run([path, '--help'], room)
        assert ended.status == 0
        told.append(ended.output.decode())
    plain, own = (dict(zip(KINDS, said('help', text))) for text in told)
    for kind in ('options', 'statuses'):
        assert set(own[kind]) == set(plain[kind]) != set(), kind
    assert not {*OWN, *schema.COMMON} - set(found(r'^  ([a-z]+) ', told[1]))
