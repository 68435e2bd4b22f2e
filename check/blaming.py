"""The items to blame in a puzzle that has no solution: which other numbers would do, or without which two items there is one."""

from __future__ import annotations

from typing import Any, Dict, List, Mapping, NamedTuple, Union

from playing.naming import Place, name, side
from playing.program import Gone
from playing.trial import Trial
from playing.verdict import Item, Verdict, blame_told, blamed, is_square, items_of


class Blame(NamedTuple):
    """In words, and as data: what items would have to say, by how many solutions there are then; and the pairs."""

    told: str
    mends: Mapping[str, List[Any]]
    pairs: List[Any]


class Blaming:
    """A run of the program for each game, in which lines are tried."""

    def __init__(self, path: str) -> None:
        self._path = path
        self._trials: Dict[str, Trial] = {}

    def stop(self) -> None:
        for trial in self._trials.values():
            trial.stop()

    def of(self, game: str, id: str, spare: Mapping[str, List[Any]]) -> Blame:
        """Of a puzzle without a solution, whose items to blame the program has told. Raises `Gone`."""
        trial = self._trials.setdefault(game, Trial(self._path, game))
        board = trial.ask(id, ['board']).board
        if board is None:
            raise Gone("it doesn't give its board")
        size, verdict = board.size, Verdict('none', marked=items_of(spare, board.size))
        *_, verdict = blamed(board, verdict, lambda lines: trial.ask(id, lines))
        told = {'one': verdict.mends if verdict.is_one_by_mends else (), 'several': () if verdict.is_one_by_mends else verdict.mends}
        mends = {count: [_object(item, size, number) for item, number in found] for count, found in told.items()}
        return Blame(blame_told(verdict, size), mends, [[_object(item, size) for item in pair] for pair in verdict.pairs])


def _object(item: Item, size: int, number: int = 0) -> Mapping[str, Union[int, str]]:
    """An item by its place, as the program tells it and by its name, and the number that it would have to say."""

    def cell(place: Place) -> int:
        return place[1] * size + place[0]

    if len(item) > 1:
        return {'greater': cell(item[0]), 'less': cell(item[1]), 'name': f'{name(item[0])} greater than {name(item[1])}'}
    if is_square(item[0], size):
        return {'cell': cell(item[0]), 'name': name(item[0]), **({'number': number} if number else {})}
    return {'x': item[0][0], 'y': item[0][1], 'name': f'clue {side(item[0], size)}', **({'clue': number} if number else {})}
