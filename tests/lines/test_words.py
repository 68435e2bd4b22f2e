"""Words of the command line: those that are refused, and those that ask for help."""

from typing import Any, Dict

import pytest

from tests.harness import by_name
from tests.harness.builds import TOP
from tests.harness.game import ID
from tests.lines.runs import Player, Run

#: The version and LF, as they are written once.
VERSION = (TOP / 'VERSION').read_bytes()

#: The lines below a refusal of words.
MORE = b"\n\nFor more information, try '--help'.\n"

#: The sentence on a word that is none, without a tip.
UNEXPECTED = b"error: unexpected argument '%s' found\n\nUsage: puzzles [OPTIONS] <GAME>" + MORE

NO_GAME = b"""error: the following required arguments were not provided:
  <GAME>

  tip: to play on a board, use puzzles-play

Usage: puzzles <GAME>"""

NO_OPTION = b"""error: unexpected argument '5!7' found

  tip: did you mean --id '5!7'?

Usage: puzzles [OPTIONS] <GAME>"""

ALMOST_AN_OPTION = b"""error: unexpected argument '--lod' found

  tip: a similar argument exists: '--load'

Usage: puzzles --load <FILE> <GAME>"""

#: Refused words, with what standard error has to name.
REFUSED = [
    Run('no words', [], status=2, error=NO_GAME + MORE),
    Run('a game that is not there', ['chess'], status=2, error_has=[b'[possible values: towers, unequal]']),
    Run('a game in capitals', ['Towers'], status=2, error_has=[b"invalid value 'Towers'"]),
    Run('an ID and a file to load', ['towers', '--id', '3', '--load', 'f'], status=2, error_has=[b'cannot be used with']),
    Run('a file to load and an ID', ['towers', '--load', 'f', '--id', '3'], status=2, error_has=[b'cannot be used with']),
    Run('an option that is not there', ['towers', '--seed', '7'], status=2, error_has=[b"'--seed'"]),
    Run('an option without its value', ['towers', '--id'], status=2, error_has=[b"'--id <ID>'"]),
    Run('an option twice', ['towers', '--id', '3', '--id', '3'], status=2, error_has=[b"'--id <ID>'"]),
    Run('an ID without its option', ['towers', '5!7'], status=2, error=NO_OPTION + MORE),
    Run('a described game without its option', ['towers', ID], status=2, error_has=[b'tip: did you mean --id ']),
    Run('a letter that is no option', ['towers', '-x'], status=2, error=UNEXPECTED % b'-x'),
    Run('an ID that begins as an option', ['towers', '--id', '-3'], status=2, error=UNEXPECTED % b'-3'),
    Run('a word too many', ['towers', 'unequal'], status=2, error=UNEXPECTED % b'unequal'),
    Run('an option with a letter left out', ['towers', '--lod', 'f'], status=2, error=ALMOST_AN_OPTION + MORE),
    Run('a word that is no UTF-8', ['towers', '--id', b'\xff'], status=2, error_has=[b'UTF-8', b'--help']),
    Run(
        'refused words leave the files alone',
        ['towers', '--id', '3', '--load', 'old.sav', '--save', 'old.sav'],
        given={'old.sav': b'old'},
        status=2,
        error_has=[b'cannot be used with'],
        holds={'old.sav': b'old'},
    ),
]

#: The words that the help has to name.
HELP = [
    b'Usage: puzzles [OPTIONS] <GAME>', b'--id', b'--load', b'--save', b'5!7', ID.encode(), b'new ID', b'move TEXT', b'undo', b'redo',
    b'restart', b'solve', b'list N', b'show', b'marks', b'done', b'status', b'id', b'save', b'quit', b'Examples:', b'Exit status:',
    b'puzzles-play', b'puzzles-json', b"puzzles towers --id '5!7' --save",
]

ASKED = [
    Run('help', ['--help'], output_has=HELP),
    Run('short help', ['-h'], output_has=[b'Usage: puzzles [OPTIONS] <GAME>']),
    Run('the version', ['--version'], output=b'puzzles ' + VERSION),
    Run('the version, in short', ['-V'], output=b'puzzles ' + VERSION),
]

UNWRITTEN = Run('help that can not be written', ['--help'], status=1, error=b'cannot write the output\n')


@pytest.mark.parametrize('row', [*REFUSED, *ASKED], ids=by_name)
def test_words(player: Player, row: Run) -> None:
    player.play(row)


@pytest.mark.parametrize('stream', ['closed', 'full'], indirect=True)
def test_unwritten(player: Player, stream: Dict[str, Any]) -> None:
    player.play(UNWRITTEN, **stream)
