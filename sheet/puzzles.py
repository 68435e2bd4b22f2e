"""A puzzle and its answer, as the program has shown in this run that there is just this one."""

from __future__ import annotations

from typing import Dict, NamedTuple

from playing.board import Board, Reply
from playing.games import GRADES
from playing.program import Gone, Program

#: The sentence on a puzzle that isn't printed, by how many solutions there are.
NOT_ONE = {'none': 'no solution', 'several': 'several solutions'}


class Unfit(Exception):
    """Nothing can be printed of that. The text says why."""


class Puzzle(NamedTuple):
    #: At its start, and with the numbers of its only solution.
    board: Board
    answer: Board
    #: Of its grade; nothing where none is known.
    letter: str
    caption: str = ''

    @property
    def game(self) -> str:
        return self.board.session.game

    @property
    def size(self) -> int:
        return self.board.size

    @property
    def id(self) -> str:
        return self.board.session.id

    @property
    def grade(self) -> str:
        """The name of its grade, or nothing."""
        return GRADES[self.game].get(self.letter, '').title()


class Programs:
    """A run of the program for each game, which begins where it is asked first."""

    def __init__(self, path: str) -> None:
        self.path = path
        self._running: Dict[str, Program] = {}

    def __enter__(self) -> Programs:
        return self

    def __exit__(self, *_: object) -> None:
        for program in self._running.values():
            program.stop()

    def ask(self, game: str, line: str) -> Reply:
        """The reply to a line. Raises `Gone`, also where the reply is lost."""
        reply = self._program(game).ask(line)
        if reply.is_lost:
            raise Gone('there is no memory left')
        return reply

    def board(self, game: str) -> Board:
        """The board of the game that has begun."""
        board = self.ask(game, 'board').board
        if board is None:
            raise Gone('it gives no board')
        return board

    def _program(self, game: str) -> Program:
        if game not in self._running:
            self._running[game] = Program(self.path, game)
        return self._running[game]


def proved(programs: Programs, game: str, caption: str = '') -> Puzzle:
    """The puzzle that has begun, with its only solution. Raises `Unfit` where that isn't the only one, or there is none."""
    board = programs.board(game)
    ways = programs.ask(game, 'completable').completable
    if ways != 'one':
        raise Unfit(NOT_ONE.get(str(ways), 'it is not known how many solutions there are'))
    # The grade by whose steps it follows, as the program finds; where it finds none, the one that the ID claims.
    letter = programs.ask(game, 'grade').grade or board.session.letter
    programs.ask(game, 'solve')
    answer = programs.board(game)
    if not answer.is_solved or answer.session.id != board.session.id:
        raise Gone('it has found one solution, and gives none')
    return Puzzle(board, answer, letter, caption)
