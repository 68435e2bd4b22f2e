"""Words for squares, lines and lists, as the sentences of hints have them."""

from typing import Collection, Dict, FrozenSet, List, Mapping, Sequence


def square(size: int, cell: int) -> str:
    return f'r{cell // size + 1}c{cell % size + 1}'


def joined(words: Sequence[object], last: str) -> str:
    texts = [str(word) for word in words]
    return texts[0] if len(texts) == 1 else f"{', '.join(texts[:-1])} {last} {texts[-1]}"


def squares(size: int, cells: Sequence[int], last: str = 'and') -> str:
    return joined([square(size, cell) for cell in cells], last)


def line_name(size: int, line: int) -> str:
    return f'row {line + 1}' if line < size else f'column {line - size + 1}'


def capital(text: str) -> str:
    return text[0].upper() + text[1:]


def is_or_are(cells: Collection[int]) -> str:
    return 'is' if len(cells) == 1 else 'are'


def losses(size: int, strikes: Mapping[int, FrozenSet[int]]) -> str:
    """The struck numbers: squares that lose the same ones together."""
    lost: Dict[FrozenSet[int], List[int]] = {}
    for cell, numbers in strikes.items():
        lost.setdefault(numbers, []).append(cell)
    return '; '.join(f"{squares(size, cells)} {is_or_are(cells)} not {joined(sorted(numbers), 'or')}" for numbers, cells in lost.items())
