"""The line mode: games as transcripts in the folder `lines`, each line beside its answer.

`…` is any text, and on a line of its own any lines. The words at the beginning, up to the line that tells of help, may be left out.
"""

from typing import List, Tuple

import pytest

from tests.board.line_games import FOLDER
from tests.board.playing import BoardFront
from tests.harness import ID, Room, run, save_text
from tests.harness.played import Line, transcripts


@pytest.mark.parametrize('lines', transcripts(FOLDER))
def test_lines(front: BoardFront, lines: List[Line]) -> None:
    front.play_in_lines(lines)


#: Lines as they may come, and all that is answered. A question is answered by the next line; at the end of the input the game is kept.
PIPED: List[Tuple[str, str]] = [
    ('solve\nn\nstatus', 'Fill in the solution? u takes it back. y/N\nplaying 1/1\n'),
    ('\n  id\r\nquit\nid\n', f'{ID}\n'),
    ('\xff\n', "There is no such command; 'help' lists them all.\n"),
]


@pytest.mark.parametrize(('lines', 'wanted'), PIPED)
def test_piped(front: BoardFront, room: Room, lines: str, wanted: str) -> None:
    ended = run([front.path, '--lines', 'towers', ID], room, input=lines.encode('latin-1'), env=front.env())
    assert (ended.status, ended.error, ended.output.decode().partition('help lists the rest.\n')[2]) == (0, b'', wanted)


def test_piped_end(front: BoardFront, room: Room) -> None:
    """Where nobody reads on, that is told; the game is kept, and goes on in a pipe, too."""
    ended = run(['sh', '-c', f'(echo r1c1 1; echo help; echo help) | "$0" --lines towers {ID} | true', front.path], room, env=front.env())
    assert ended.error.decode() in ('', 'puzzles-play: standard output: Broken pipe\n')
    run([front.path, '--lines', 'towers', ID], room, input=b'1 1 1\n', env=front.env())
    assert room.read('state/puzzles/towers.sav') == save_text(1)
    ended = run([front.path, '--lines'], room, input=b'status\n', env=front.env())
    assert ended.output.endswith(b'playing 2/2\n')
