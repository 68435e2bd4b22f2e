"""Games worth playing: fair ones, which the program makes without end, and stored puzzles of the other grades."""

from __future__ import annotations

import os
import random
import time
from functools import lru_cache
from typing import Dict, List, Optional, Sequence, Tuple

from playing import beside, fair, files
from playing.beside import beside_in
from playing.board import GAMES, Board
from playing.program import Gone, Refused, Stopped, Waiting, started_with
from playing.saves import game_in
from playing.state import Home, NotKept, SavedGame, State

#: The letters of difficulty, by the usual programs' words.
GRADES: Dict[str, Dict[str, str]] = {
    'towers': {'e': 'easy', 'h': 'hard', 'x': 'extreme', 'u': 'unreasonable'},
    'unequal': {'t': 'trivial', 'e': 'easy', 'k': 'tricky', 'x': 'extreme', 'r': 'recursive'},
}

#: The sizes of the grid.
SIZES = fair.SIZES

#: So much of an ID tells a game from others in a list.
ID_LETTERS = 16

BANK = os.path.join(os.path.dirname(os.path.realpath(__file__)), 'bank')


@lru_cache(maxsize=None)
def bank(game: str) -> Tuple[str, ...]:
    """The IDs of all stored puzzles of a game; none where they can't be read."""
    return tuple(files.read(bank_path(game)).content.decode('ascii', 'replace').splitlines())


def bank_path(game: str) -> str:
    return os.path.join(BANK, f'{game}.txt')


def bank_trouble(game: str) -> str:
    """A sentence where there are no stored puzzles of a game."""
    return '' if bank(game) else f"{bank_path(game)} {files.read(bank_path(game)).why or 'has no puzzles'}."


def stored(game: str, size: int, letter: str) -> List[str]:
    """The IDs of the stored puzzles of a size and a grade."""
    return [id for id in bank(game) if id.startswith(f'{size}d{letter}:')]


def letters(game: str, size: int) -> List[str]:
    """The grades of which there are fair games or stored puzzles."""
    return [letter for letter in GRADES[game] if letter in fair.letters(game, size) or stored(game, size, letter)]


def unplayed(state: State, game: str, size: int, letter: str) -> Tuple[int, int]:
    """How many stored puzzles weren't played, and how many there are."""
    ids = stored(game, size, letter)
    return len(set(ids) - state.played(game)), len(ids)


def take(state: State, game: str, size: int, letter: str) -> Optional[str]:
    """One of the stored puzzles that wasn't played, which counts as played from now on. When all were, all begin anew."""
    ids = stored(game, size, letter)
    played = state.played(game)
    new = [id for id in ids if id not in played]
    if ids and not new:
        played -= set(ids)
        new = ids
    if not new:
        return None
    id = random.choice(new)
    try:
        state.set_played(game, played | {id})
    except NotKept:
        # It may be offered again, which is no harm.
        pass
    return id


def board_of(path: str, game: str, content: bytes, waiting: Waiting) -> Optional[Board]:
    """The board of a saved game; nothing where it can't be had."""
    try:
        program = started_with(path, game, content, waiting)
    except (Refused, Gone, Stopped):
        return None
    program.stop()
    return program.first.board


def summary(path: str, saved: SavedGame, waiting: Waiting) -> str:
    """A game that can be continued: which it is, how far, and when it was played last."""
    content = files.read(saved.path).content
    named = game_in(content)
    game = named.lower() if named else saved.game
    name = f'{os.path.basename(saved.path)}: ' if saved.home is Home.FOLDER else ''
    if named and game not in GAMES:
        return f'{name}{named}, not played here'
    board = board_of(path, game, content, waiting)
    when = when_told(saved.when)
    if board is None:
        return f"{name}{game}, can't be read, {when}"
    kept = beside_in(files.read(beside.file_of(saved.path)).content, board.session.id)
    parts = [which(board, kept.number), how_far(board), 'in play' if saved.home is Home.PRESENT else '', when]
    return name + ', '.join(filter(None, parts))


def which(board: Board, number: Optional[int]) -> str:
    """A game by its size and grade, and by its number or else the beginning of its ID."""
    session = board.session
    kind = f'{GAMES[session.game]} {board.size}x{board.size} {GRADES[session.game].get(session.letter, "")}'.rstrip()
    return f'{kind}, number {number}' if number is not None else f'{kind}, ID {shortened(session.id)}'


def shortened(id: str) -> str:
    return id if len(id) <= ID_LETTERS else f'{id[:ID_LETTERS]}..'


def how_far(board: Board) -> str:
    filled, empty = board.own
    return 'solved' if board.is_solved else f'{filled} of {empty}'


def when_told(seconds: float) -> str:
    """A day and a time of this year; a day of another one."""
    when = time.localtime(seconds)
    return time.strftime('%d %b %H:%M' if when.tm_year == time.localtime().tm_year else '%d %b %Y', when)


def distinct(lines: Sequence[str]) -> List[str]:
    """The lines, of which those that are as an earlier one are counted."""
    seen: Dict[str, int] = {}
    found: List[str] = []
    for line in lines:
        seen[line] = seen.get(line, 0) + 1
        found.append(line if seen[line] == 1 else f'{line} ({seen[line]})')
    return found
