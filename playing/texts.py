"""A sentence for each refusal of the program: what would be right. Those that the page in a browser says, too, are in `shared_texts`."""

from __future__ import annotations

import re
from typing import Dict, Mapping, NamedTuple, Optional

from playing import shared_texts
from playing.beside import hints_told
from playing.board import GAMES
from playing.fair import OFFERED
from playing.games import GRADES
from playing.saves import game_in


class Ways(NamedTuple):
    """How players do in a front end what the sentences speak of."""

    clear: str
    number: str
    done: str
    commands: str
    back: str
    why: str


BY_KEYS = Ways('0 clears it', "a digit on a square, or ':move R2,0,3'", "'D0,-1'", '? shows the keys', 'b', 'h')
BY_LINES = Ways("'r1c2 0' clears it", "'r1c2 3' (row, column, number), or 'p r1c2 3'", "'d above 1'", "'help' lists them all", "'back'", "'why'")

#: Moves. The size and the words of the front end are put in.
MOVES: Dict[str, str] = {
    **shared_texts.REFUSED_MOVES,
    'BadMove': 'This is not a move. Try {number}.',
    'OffGrid': 'Columns and rows count from 0 to {last}.',
    'OffRange': 'Numbers go from 1 to {size}, and 0 clears a square.',
    'FilledSquare': 'The square has a number: {clear} for pencil marks.',
    'NoSolution': 'No solution exists for this puzzle.',
    'SeveralSolutions': 'Multiple solutions exist for this puzzle: none is filled in.',
}

#: On the setter's desk: items that puzzles of the game can't have.
ITEMS: Mapping[str, str] = {
    'towers': 'Towers has no signs: it has clues at the edge.',
    'unequal': 'A sign stands between two neighbours, and Unequal has no clues at the edge.',
}

#: How an empty desk is filled, by keys and by lines.
TYPING: Mapping[str, Dict[str, str]] = {
    'towers': {
        'keys': 'Go to the edge or to a square by arrows, then type its number.',
        'lines': "'clue above 1 3' is a clue, 'given r1c2 4' a number.",
    },
    'unequal': {
        'keys': 'Go to a square by arrows, then type its number; < > ^ v are signs to its right or below.',
        'lines': "'sign r1c1 > r1c2' is a sign, 'given r1c2 4' a number.",
    },
}

#: A clue's done mark.
NO_CLUE = 'A done mark is for a clue at the edge, as in {done}.'

IDS: Dict[str, str] = {
    **shared_texts.REFUSED_IDS,
    'BadSize': "An ID begins with the size, one digit from 3 to 9, like the 5 in '5!7'.",
    'BadLetter': "After the size and 'd' comes one of the letters {letters}.",
    'AdjacentMode': "The adjacent mode of Unequal, with 'a' after the size, is not played here.",
    'BadParams': "Only 'd' and a letter may stand between the size and ':' or '!'.",
    'ForeignSeed': "Seeds with '#' work in the usual program only. There, copy the game ID, which has ':'.",
    'NoDescription': "An ID has ':' and a description, or '!' and a seed, after the size: '5!7'.",
    'BadSeed': "A seed is a number from 0 to 18446744073709551615, without leading zeros: '5!7'.",
    'Graded': "A seeded game has no difficulty letter: '5!7'.",
}

#: The line that begins a fair game. The letters that are offered are put in.
FAIR: Dict[str, str] = {
    'BadSize': 'A size is one digit from 3 to 9.',
    'BadLetter': 'The grades of such games are {letters}, {last} from size 4 on.',
    'BadSeed': 'The number of a game goes from 0 to 18446744073709551615, without leading zeros.',
    'BadCommand': "'fair 5 e 20261126' begins a game: its size, the letter of its grade, and its number.",
}

#: Descriptions, by the game.
DESCRIPTIONS: Mapping[str, Dict[str, str]] = {
    'towers': {
        'BadClue': 'Each clue is nothing, or one digit from 1 to the size.',
        'BadSquares': "After ',' come letters for empty squares, and digits from 1 to the size.",
        'TooFew': "Too few parts: a description has 4 x size clues separated by '/', then ',' and the squares.",
        'TooMany': "Too many parts: a description has 4 x size clues separated by '/', then ',' and the squares.",
    },
    'unequal': {
        'BadClue': "After a square's digit come no other letters than U, R, D and L.",
        'BadSquares': 'Each square is one digit from 0 to the size, with its letters after it.',
        'TooFew': "Too few parts: a description has one for each square, separated by ','.",
        'TooMany': "Too many parts: a description has one for each square, separated by ','.",
        'OffGrid': 'A sign points out of the grid.',
        'Contradiction': 'Of two neighbours only one can be the greater: two signs contradict each other.',
    },
}

SAVES: Dict[str, str] = {
    **shared_texts.REFUSED_SAVES,
    'NotASave': "This is not a save file of the collection: one begins with 'SAVEFILE:41:'.",
    'WrongGame': "That save is of another game: 'puzzles-play {other} FILE' opens the saves of {other}.",
    'BadState': "Move {number} of that save can't be made on its board.",
    'Malformed': 'That save is damaged (Malformed).',
    'Repeated': 'That save is damaged (Repeated).',
    'EarlyState': 'That save is damaged (EarlyState).',
    'Missing': 'That save is damaged (Missing).',
}

#: Any line.
LINES: Dict[str, str] = {
    **shared_texts.REFUSED_LINES,
    'BadCommand': 'There is no such command; {commands}.',
    'NoGame': shared_texts.NO_GAME,
}

WRONG = "These numbers can't be completed: undo some."

GREETING = 'A new game. Arrows move, 1-9 put a number in. h: a hint, ?: all keys.'

STAYS = 'The present game stays.'
NOT_KEPT = 'The {word} is not kept ({why}). Quit and lose it?'
NO_VIEW = "The program doesn't say which numbers are possible."

LOST = 'Out of memory. The command may or may not have been carried out: look at the board.'


def of_line(line: str, name: str, game: str, size: int, ways: Ways) -> str:
    """The sentence for a refused line."""
    if name == 'BadCommand' and re.match('list( |$)', line):
        return "'list 5' shows the first five solutions: a number from 1 to 100."
    if line.startswith('fair'):
        return of_fair(name, game)
    if name in LINES:
        return LINES[name].format(commands=ways.commands)
    if line.startswith('new'):
        return of_id(name, game)
    if name == 'OffGrid' and line.startswith('item'):
        return ITEMS[game]
    if name == 'OffGrid' and line.startswith('move D'):
        return NO_CLUE.format(size=size, done=ways.done) if game == 'towers' else 'Done marks are for the clues of Towers: Unequal has none.'
    found = MOVES.get(name, 'The program refuses that: {name}.')
    return found.format(name=name, size=size, last=size - 1, clear=ways.clear, number=ways.number)


def of_solved(status: str, hints: int) -> str:
    """The sentence for a solved board, by the session's status and the number of hints."""
    if status == 'helped':
        return shared_texts.FILLED_IN
    return f'Solved, {hints_told(hints)}.' if hints else 'Solved!'


def of_wrong(moves: Optional[int], ways: Ways) -> str:
    """The sentence for numbers that can't be completed: since which moves, if that is known, and how to take these back."""
    if moves is None:
        return WRONG
    if moves == 0:
        return shared_texts.NEVER_RIGHT
    return f"These numbers can't be completed since {last_moves(moves)}: {ways.back} takes {'it' if moves == 1 else 'them'} back."


def last_moves(moves: int) -> str:
    return 'the last move' if moves == 1 else f'the last {moves} moves'


def gone_back(moves: int, marks: int) -> str:
    """The sentence after so many moves were undone, and so many pencil marks with them."""
    went = f' with {counted(marks, "pencil mark")}' if marks else ''
    return f'{counted(moves, "move").capitalize()} taken back{went}. Now the numbers can be completed; redo makes {"it" if moves == 1 else "them"} again.'


def counted(number: int, what: str) -> str:
    """`one move`, `2 moves`."""
    return f'one {what}' if number == 1 else f'{number} {what}s'


def of_id(name: str, game: str) -> str:
    """The sentence for a refused ID."""
    *first, last = GRADES[game]
    found = IDS.get(name) or LINES.get(name) or DESCRIPTIONS[game].get(name) or 'The program refuses that ID: {name}.'
    return found.format(name=name, letters=f'{", ".join(first)} or {last}')


def of_fair(name: str, game: str) -> str:
    """The sentence for a refused line of a fair game."""
    letters = [f"'{letter}'" for letter in OFFERED[game]]
    found = FAIR.get(name) or LINES.get(name) or 'The program refuses that game: {name}.'
    return found.format(name=name, letters=f'{", ".join(letters[:-1])} and {letters[-1]}', last=letters[-1])


def of_foreign(content: bytes) -> str:
    """The sentence for a save of a third game; empty if it doesn't name the game."""
    name = game_in(content)
    return f'That is a save of {name}, which is not played here.' if name else ''


def of_save(name: str, game: str) -> str:
    """The sentence for a refused save."""
    other = next(word for word in GAMES if word != game)
    name, _, number = name.partition(' ')
    found = SAVES.get(name) or LINES.get(name) or 'The program refuses that save: {name}.'
    return found.format(name=name, other=other, number=number)
