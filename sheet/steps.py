"""How an answer goes on, move by move: each puts a number that follows, with the steps that show it, in the sentences of the program's hints."""

from __future__ import annotations

from typing import Dict, Iterator, List, NamedTuple, Optional, Sequence

from playing.board import Hint
from playing.games import GRADES
from playing.naming import Place
from playing.steps import Sentence
from sheet.puzzles import Programs, Puzzle

#: How many moves are told from the beginning; the hardest one is told, too.
FIRST = 3

NO_MORE = 'After that no number follows by steps.'

#: Terms of the sentences, and what there is to say of them.
TERMS = {
    'with the numbers in': 'With the numbers in a row or column: with those that stand there, and any others elsewhere.',
    'by what is left in': 'By what is left in a row or column: by the numbers that are not ruled out there yet.',
}


class Move(NamedTuple):
    #: Counted from 1.
    number: int
    sentences: List[Sentence]
    #: The place of its grade among the game's, and how many steps it takes.
    grade: int
    steps: int
    #: The square, and the number that it puts there; nothing at the end.
    square: Optional[Place] = None
    put: Optional[int] = None
    is_hardest: bool = False

    @property
    def is_numbered(self) -> bool:
        """Whether its steps are counted."""
        return bool(self.sentences[0].number)


def found(programs: Programs, puzzle: Puzzle) -> List[Move]:
    """The moves by which a puzzle follows, and where no number follows any more one that says so."""
    programs.ask(puzzle.game, f'new {puzzle.id}')
    letters = list(GRADES[puzzle.game])
    moves: List[Move] = []
    while True:
        hint = programs.ask(puzzle.game, 'hint').hint
        # Where no number follows by steps there is no sentence.
        square = hint.square(puzzle.size) if hint and hint.text else None
        if hint is None or square is None:
            break
        grade = letters.index(hint.grade) if hint.grade in letters else -1
        moves.append(Move(len(moves) + 1, told_in(hint), grade, len(hint.told), square, hint.number))
        programs.ask(puzzle.game, f'move R{square[0]},{square[1]},{hint.number}')
    hardest = max(moves, key=lambda move: (move.grade, move.steps, -move.number), default=None)
    every = [move._replace(is_hardest=move is hardest) for move in moves]
    return every if programs.board(puzzle.game).is_solved else [*every, Move(len(moves) + 1, [Sentence(NO_MORE)], -1, 0)]


def told(moves: Sequence[Move], are_all: bool) -> List[Move]:
    """The first ones and the hardest; or all of them."""
    return [move for move in moves if are_all or move.number <= FIRST or move.is_hardest or move.square is None]


def order(moves: Sequence[Move]) -> Dict[Place, Move]:
    """By the square, the move that puts its number."""
    return {move.square: move for move in moves if move.square}


def told_in(hint: Hint) -> List[Sentence]:
    """Those of a hint; a step that is the only one has no number."""
    every = hint.sentences
    is_single = sum(bool(sentence.number) for sentence in every) == 1
    return [sentence._replace(number='') for sentence in every] if is_single else every


def explained_words(moves: Sequence[Move]) -> Iterator[str]:
    """The sentence on the terms that some moves have."""
    every = [sentence.text for move in moves for sentence in move.sentences]
    yield from (said for term, said in TERMS.items() if any(term in text for text in every))
