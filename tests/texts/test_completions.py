"""The completions of the shells offer the games and the options that the programs take, and no option twice.

That of bash is run. Those of zsh and fish are read by their shells where these are there; what they name is held against the help.
"""

import shutil
from typing import Callable, Dict, List

import pytest

from tests.harness import Room, named, run
from tests.texts.parts import ROOT, found, part, read
from tests.texts.test_users import said

GAMES = ['towers', 'unequal']


#: The words of a line as bash cuts them, and what the last of them can become. There is a file old.sav.
LINES = [
    ('all', ['puzzles', ''], 'towers unequal --id --load --save --help --version'),
    ('options', ['puzzles', 'towers', '--'], '--id --load --save --help --version'),
    ('one game', ['puzzles', 'towers', ''], '--id --load --save --help --version'),
    ('a file', ['puzzles', 'towers', '--load', 'o'], 'old.sav'),
    ('a file after =', ['puzzles', 'towers', '--load', '=', 'o'], 'old.sav'),
    ('a file after = in one word', ['puzzles', 'towers', '--save=o'], '--save=old.sav'),
    ('no file for an ID', ['puzzles', 'towers', '--id', ''], ''),
    ('an ID was named', ['puzzles', 'towers', '--id', '5!7', '--'], '--save --help --version'),
    ('a file was named', ['puzzles', 'towers', '--load', '=', 'old.sav', '--'], '--save --help --version'),
    ('all was named', ['puzzles', 'towers', '--load=a', '--save', 'b', '-h', '-V', ''], ''),
    ('a file called as a game', ['puzzles', '--save', 'towers', 't'], 'towers'),
    ('puzzles-json', ['puzzles-json', 'u'], 'unequal'),
    ('the board', ['puzzles-play', ''], 'towers unequal learn --lines --ids --help --version old.sav'),
    ('the board, a file', ['puzzles-play', '--lines', 'towers', 'o'], 'old.sav'),
    ('the board, an option once', ['puzzles-play', '--lines', '-'], '--help --version'),
    ('the board, grades', ['puzzles-play', 'unequal', 't'], 'trivial tricky today'),
    ('the board, grades of the other game', ['puzzles-play', '--ids', 'towers', '6', ''], 'easy hard extreme unreasonable number today --help --version old.sav'),
    ('the board, a grade was named', ['puzzles-play', 'towers', 'hard', ''], '3 4 5 6 7 8 9 number today --lines --ids --help --version old.sav'),
    ('the board, a number was named', ['puzzles-play', 'towers', 'number', '7', ''], '3 4 5 6 7 8 9 easy hard --lines --ids --help --version old.sav'),
    ('the board, all was named', ['puzzles-play', 'unequal', '4', 'today', 'easy', ''], '--lines --ids --help --version old.sav'),
    ('the board, grades of size 3', ['puzzles-play', 'towers', '3', 'today', ''], 'easy --lines --ids --help --version old.sav'),
    ('the board, grades of size 9', ['puzzles-play', 'unequal', '9', ''], 'trivial easy tricky extreme number today --lines --ids --help --version old.sav'),
    ('the board, nothing for a number', ['puzzles-play', 'towers', 'number', ''], ''),
    ('the board, the course', ['puzzles-play', 'learn', ''], 'towers unequal --lines --help --version'),
    ('the board, the course of a game', ['puzzles-play', 'learn', 'towers', ''], '--lines --help --version'),
    ('the page', ['puzzles-page', ''], '--path --help --version'),
    ('the page, all was named', ['puzzles-page', '--path', ''], ''),
    ('a sheet', ['puzzles-sheet', 'towers', '--s'], '--size --series --seed --show-grades --steps'),
    ('a sheet, where grades stand', ['puzzles-sheet', 'towers', '--show-grades', ''], 'answers all none'),
    ('a sheet, where a PDF goes', ['puzzles-sheet', 'towers', '--pdf', 'o'], 'old.sav'),
    ('a sheet, a word of an option', ['puzzles-sheet', 'towers', '--paper', ''], 'a4 letter'),
    ('a sheet, a word after =', ['puzzles-sheet', 'towers', '--answers', '=', 'o'], 'only'),
    ('a sheet, grades of Towers', ['puzzles-sheet', 'towers', '--grade', ''], 'easy hard'),
    ('a sheet, grades of Unequal', ['puzzles-sheet', 'unequal', '--grade', ''], 'trivial easy tricky'),
    ('a sheet, sizes', ['puzzles-sheet', '--size', ''], '3 4 5 6 7 8 9'),
    ('a sheet, a list', ['puzzles-sheet', '--ids', 'o'], 'old.sav'),
    ('a check', ['puzzles-check', ''], '--json --draw --table --solutions --quick --certificate --needed --seconds --megabytes --help --version old.sav'),
    ('a check, an option', ['puzzles-check', 'old.sav', '--json', '--ne'], '--needed'),
    ('a check, where certificates go', ['puzzles-check', '--certificate', 'o'], 'old.sav'),
    ('a sheet, nothing for a title', ['puzzles-sheet', '--title', ''], ''),
]

#: Completes the words after the first, which names the file of the completion, by the function that it gives the command.
COMPLETE = """\
. "$1"
compopt() { :; }
shift
COMP_WORDS=("$@") COMP_CWORD=$(($# - 1))
given=$(complete -p -- "$1")
given=${given#*-F }
"${given%% *}"
printf '%s' "${COMPREPLY[*]}"
"""


#: The commands in Python, by where they lie.
FRONTS = {'puzzles-play': 'board', 'puzzles-page': 'page', 'puzzles-sheet': 'sheet', 'puzzles-check': 'check'}


def zsh_options() -> Dict[str, List[str]]:
    """The words that the file for zsh offers: its parts are arms of one case, of which the last is that of the programs."""
    text = read('board/completion.zsh')
    told = {name: found(r'--([a-z-]+)[=\[}]', part(text, f'    {name})', ';;$')) for name in FRONTS}
    return {'puzzles': found(r'--([a-z]+)[=}]', part(text, '    *)', ';;')), **told}


def fish_options() -> Dict[str, List[str]]:
    text = read('board/completion.fish')
    return {name: found(rf'complete -c {word} .* -l ([a-z-]+)', text) for name, word in [('puzzles', r'\$program'), *((name, name) for name in FRONTS)]}


def front_options(room: Room, name: str) -> List[str]:
    """Those of the help of a command in Python."""
    ended = run([str(ROOT / FRONTS[name] / name), '--help'], room)
    assert ended.status == 0
    return found(r'--([a-z-]+)', ended.output.decode())


@pytest.mark.parametrize(('words', 'wanted'), named(LINES))
def test_bash(room: Room, words: List[str], wanted: str) -> None:
    room.put('old.sav')
    ended = run(['bash', '-c', COMPLETE, 'bash', str(ROOT / 'board/completion.bash'), *words], room)
    assert (ended.output.decode(), ended.error) == (wanted, b'')


@pytest.mark.parametrize(('shell', 'offered'), [('zsh', zsh_options), ('fish', fish_options)])
def test_options(room: Room, shell: str, offered: Callable[[], Dict[str, List[str]]]) -> None:
    """Those of the help, and the names of the programs and games."""
    wanted = {'puzzles': said('FORMATS', read('docs/FORMATS.md'))[1], **{name: front_options(room, name) for name in FRONTS}}
    for program, told in offered().items():
        assert set(told) == set(wanted[program]) != set(), program
    assert [text for text in [*wanted, 'puzzles-json', *GAMES] if text not in read(f'board/completion.{shell}')] == []


@pytest.mark.parametrize('shell', ['zsh', 'fish'])
def test_shell(room: Room, shell: str) -> None:
    """The shell itself, where it is there, finds nothing wrong with its file."""
    if shutil.which(shell):
        assert run([shell, '-n', str(ROOT / f'board/completion.{shell}')], room) == (0, b'', b'')


def test_debian_zsh(room: Room) -> None:
    """The package has the file where Debian's zsh looks for those of packages; one that is there says the same."""
    (folder,) = found(r'zshcompdir=(\S+)', read('debian/rules'))
    assert folder == '/usr/share/zsh/vendor-completions'
    if shutil.which('zsh') and read('/etc/os-release').startswith('PRETTY_NAME="Debian'):
        assert folder in run(['zsh', '-fc', 'print -l $fpath'], room).output.decode().splitlines()
