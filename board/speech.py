"""A board in sentences, for those who can't see it. Squares, rows and columns are called as in what is typed, and as in the hints of the program."""

from __future__ import annotations

from typing import List, Mapping, Sequence, Tuple

from playing.board import Board, Sign
from playing.games import GRADES
from playing.naming import Place, clue_name, listed, name, side
from playing.verdict import Verdict


def row(board: Board, y: int) -> str:
    return _line(board, f'row {y + 1}', board.row(y), [(-1, y, 'left'), (board.size, y, 'right')])


def column(board: Board, x: int) -> str:
    return _line(board, f'column {x + 1}', board.column(x), [(x, -1, 'upper'), (x, board.size, 'lower')])


def rows(board: Board) -> List[str]:
    """All rows, and what is red."""
    return [*(row(board, y) for y in range(board.size)), *filter(None, [faults(board)])]


def grade(board: Board, found: str) -> str:
    """The grade that the ID has, and the one by the program's own steps, by its letter."""
    said, ours = (GRADES[board.session.game].get(letter, '') for letter in (board.session.letter, found))
    if not ours:
        return f'The ID says {said}, and our steps alone lead to no solution.' if said else 'No grade: our steps alone lead to no solution.'
    if said == ours:
        return f'The grade is {said}: its steps lead to the solution.'
    return f'The ID says {said}; our steps find {ours}.' if said else f'The ID has no grade; our steps find {ours}.'


def square(board: Board, place: Place) -> str:
    """The words for a square."""
    return f'{_content(board, place)}; {_lacks(board, "row", place)}; {_lacks(board, "column", place)}'


def clue(board: Board, place: Place) -> str:
    """The words for a place at the edge."""
    found = board.clues.get(place)
    if found is None:
        return 'There is no clue there.'
    words = ['done' if found.is_done else '', 'contradicted' if found.is_wrong else '']
    return ', '.join([clue_name(place, found.number, board.size), *filter(None, words)])


def item(board: Board, places: Sequence[Place]) -> str:
    """A clue, a given or a sign by its place or its squares, or that there is none."""
    place, number, other = places[0], board.numbers.get(places[0]), places[-1]
    if other != place:
        way = {(sign.greater, sign.less): '>' for sign in board.signs}
        way.update({(sign.less, sign.greater): '<' for sign in board.signs})
        return f'sign {name(place)} {way[place, other]} {name(other)}' if (place, other) in way else f'no sign between {name(place)} and {name(other)}'
    if place in board.squares:
        return f'given {number} in {name(place)}' if number else f'no given in {name(place)}'
    clue = board.clues.get(place)
    return clue_name(place, clue.number, board.size) if clue else f'no clue {side(place, board.size)}'


def verdict(board: Board, verdict: Verdict, told: str) -> List[str]:
    """The sentences on a puzzle, with the items that this speaks of, and the numbers of two solutions."""
    marked = '; '.join(item(board, places) for places in verdict.marked)
    pairs = (f'{item(board, one)}, and {item(board, other)}' for one, other in verdict.pairs)
    differ = (left(verdict.differ, board.row(y)) for y in range(board.size))
    return [text for text in (told, *(pairs if verdict.pairs else [marked]), *differ) if text]


def items(board: Board) -> str:
    """How many a puzzle has."""
    count = len(board.clues) + len(board.signs)
    return f'{count} {"clue" if board.session.game == "towers" else "sign"}{"" if count == 1 else "s"}, {len(board.givens)} given'


def clues(board: Board) -> List[str]:
    """All clues or signs, a sentence for each."""
    found = [clue(board, place) for place in board.clues]
    found += [_sign(sign) + (', contradicted' if sign.is_wrong else '') for sign in board.signs]
    return found or ['There are no clues.']


def done(board: Board) -> List[str]:
    """The clues that are marked as done."""
    return [clue(board, place) for place in board.clues if board.clues[place].is_done] or ['No clue is marked as done.']


def marks(board: Board) -> List[str]:
    """The pencil marks, a line for each row that has some."""
    rows = [_all_marks(board.marks, [place for place in board.row(y) if place in board.marks]) for y in range(board.size)]
    return [text for text in rows if text] or ['There are no pencil marks.']


def left(numbers: Mapping[Place, Sequence[int]], places: Sequence[Place]) -> str:
    """The numbers left in some squares."""
    return '; '.join(f'{name(place)} {listed(numbers[place], "or") or "nothing"}' for place in places if place in numbers)


def faults(board: Board) -> str:
    """The red places of the board; nothing if there are none."""
    found = [name(place) for place in sorted(board.wrong, key=lambda place: place[::-1])]
    found += [clue_name(place, clue.number, board.size) for place, clue in board.clues.items() if clue.is_wrong]
    found += [f'the sign between {name(sign.greater)} and {name(sign.less)}' for sign in board.signs if sign.is_wrong]
    return f'Contradicted: {"; ".join(found)}.' if found else ''


def change(before: Board, after: Board) -> str:
    """The changes of a move, in one sentence."""
    numbers = [place for place in after.squares if before.numbers.get(place) != after.numbers.get(place)]
    marks = [place for place in after.squares if before.marks.get(place) != after.marks.get(place)]
    done = [place for place, clue in after.clues.items() if clue.is_done != before.clues[place].is_done]
    if len(numbers) == 1:
        others = len([place for place in marks if place not in numbers])
        went = f'; {others} other square{"s have" if others > 1 else " has"} other pencil marks' if others else ''
        return f'{_content(after, numbers[0])}; {_lacks(after, "row", numbers[0])}{went}'
    if numbers:
        return f'{len(numbers)} squares have other numbers'
    if len(marks) == 1:
        return _content(after, marks[0])
    if marks:
        return f'{len(marks)} squares have other pencil marks'
    if len(done) == 1:
        return clue(after, done[0]) + ('' if after.clues[done[0]].is_done else ', no longer done')
    return 'nothing has changed on the board' if not done else f'{len(done)} clues have other done marks'


def _content(board: Board, place: Place) -> str:
    number, marks = board.numbers.get(place), board.marks.get(place, [])
    if number is not None:
        return f'{name(place)} is {number}' + (', given' if place in board.givens else '') + (', contradicted' if place in board.wrong else '')
    return f'{name(place)} is empty' + (f', marked {listed(marks)}' if marks else '')


def _all_marks(marks: Mapping[Place, List[int]], places: Sequence[Place]) -> str:
    return '; '.join(f'{name(place)} {listed(marks[place])}' for place in places)


def _lacks(board: Board, kind: str, place: Place) -> str:
    """The numbers that are nowhere in the row or the column of a square."""
    x, y = place
    numbers = [board.numbers.get(square) for square in (board.row(y) if kind == 'row' else board.column(x))]
    lacking = [number for number in range(1, board.size + 1) if number not in numbers]
    return f'{kind} {(y if kind == "row" else x) + 1} lacks {listed(lacking) or "nothing"}'


def _line(board: Board, title: str, squares: List[Place], ends: List[Tuple[int, int, str]]) -> str:
    texts = [str(board.numbers.get(place) or 'empty') for place in squares]
    parts = [f'{title}: {", ".join(texts)}', _lacks(board, title.split()[0], squares[0])]
    parts += [f'the {word} clue is {board.clues[x, y].number}' for x, y, word in ends if (x, y) in board.clues]
    parts += [_sign(sign) for sign in board.signs if sign.greater in squares and sign.less in squares]
    return '; '.join(parts)


def _sign(sign: Sign) -> str:
    return f'{name(sign.greater)} is greater than {name(sign.less)}'
