"""Reads a drawn picture back to a puzzle, by the places of its lines and digits alone."""

import re
from typing import Dict, Iterator, List, NamedTuple, Sequence, Tuple
from xml.etree import ElementTree
from xml.etree.ElementTree import Element

from tests.second_implementation.puzzles import Puzzle
from tests.second_implementation.towers import TowersPuzzle, edge_place
from tests.second_implementation.unequal import UnequalPuzzle

Point = Tuple[float, float]

SVG = re.compile(r'<svg .*?</svg>', re.DOTALL)

#: A digit's middle is so far above its baseline, in its font.
MIDDLE = 0.36

#: A bold number was given.
BOLD = '700'


class Line(NamedTuple):
    points: List[Point]
    is_closed: bool


class Digit(NamedTuple):
    x: float
    y: float
    number: int
    is_bold: bool


class Picture(NamedTuple):
    """A puzzle, and all numbers that are drawn in its squares, 0 for none."""

    puzzle: Puzzle
    numbers: List[int]

    @property
    def game(self) -> str:
        return 'towers' if isinstance(self.puzzle, TowersPuzzle) else 'unequal'

    @property
    def id(self) -> str:
        """Without a letter of difficulty, of which nothing is drawn."""
        return f'{self.puzzle.size}:{self.puzzle.description()}'


def pictures(page: str) -> List[Picture]:
    """Of a page, in order."""
    return [picture(ElementTree.fromstring(svg)) for svg in SVG.findall(page)]


def picture(svg: Element) -> Picture:
    # A thick frame around a square says nothing of the puzzle.
    lines = [line for path in svg.iter('path') if path.get('class') != 'hint' for line in lines_of(path.attrib['d'])]
    squares = [line for line in lines if line.is_closed]
    return of_towers(squares[0], lines, list(digits(svg))) if len(squares) == 1 else of_unequal(squares, lines, list(digits(svg)))


def lines_of(path: str) -> Iterator[Line]:
    """The lines of a path, with whole points."""
    for part in re.findall(r'M[^M]*', path):
        points: List[Point] = []
        for letter, text in re.findall(r'([A-Za-z])([-0-9 ]*)', part):
            numbers = [int(word) for word in text.split()]
            x, y = points[-1] if points else (0, 0)
            if letter in 'ML':
                points.append((numbers[0], numbers[1]))
            elif letter == 'l':
                points.append((x + numbers[0], y + numbers[1]))
            elif letter in 'Hh':
                points.append((numbers[0] + (x if letter == 'h' else 0), y))
            elif letter in 'Vv':
                points.append((x, numbers[0] + (y if letter == 'v' else 0)))
        yield Line(points, part.endswith('z'))


def digits(svg: Element) -> Iterator[Digit]:
    for group in svg.iter('g'):
        # The names of rows and columns.
        if group.get('class') == 'edges':
            continue
        font = int(group.get('font-size', '0'))
        for text in group.findall('text'):
            yield Digit(int(text.attrib['x']), int(text.attrib['y']) - MIDDLE * font, int(text.text or ''), group.get('font-weight') == BOLD)


def of_towers(frame: Line, lines: Sequence[Line], found: Sequence[Digit]) -> Picture:
    first, last = min(frame.points)[0], max(frame.points)[0]
    inside = {line.points[0][0] for line in lines if not line.is_closed and line.points[0][0] == line.points[1][0]}
    edges = [first, *sorted(inside), last]
    size = len(edges) - 1

    def index(at: float) -> int:
        return sum(1 for edge in edges if edge < at) - 1

    clues = [0] * (4 * size)
    within: Dict[Tuple[int, int], Digit] = {}
    for digit in found:
        x, y = index(digit.x), index(digit.y)
        if 0 <= x < size and 0 <= y < size:
            within[x, y] = digit
        else:
            assert not clues[edge_place(size, x, y)] and not digit.is_bold
            clues[edge_place(size, x, y)] = digit.number
    givens, numbers = in_order(size, within)
    return Picture(TowersPuzzle(size, tuple(givens), tuple(clues)), numbers)


def of_unequal(squares: Sequence[Line], lines: Sequence[Line], found: Sequence[Digit]) -> Picture:
    size = round(len(squares) ** 0.5)
    edges = sorted({square.points[0][0] for square in squares})
    side = squares[0].points[1][0] - squares[0].points[0][0]
    assert len(edges) == size and sorted({square.points[0][1] for square in squares}) == edges

    def square_at(x: float, y: float) -> Tuple[int, int]:
        """The square that has a point in it."""
        columns, rows = ([index for index, edge in enumerate(edges) if edge <= at <= edge + side] for at in (x, y))
        return columns[0], rows[0]

    signs = []
    for line in lines:
        if not line.is_closed:
            (x, y), (tip_x, tip_y), (other_x, other_y) = line.points
            across, down = tip_x - (x + other_x) / 2, tip_y - (y + other_y) / 2
            far = side / (2 * max(abs(across), abs(down)))
            less = square_at(tip_x + across * far, tip_y + down * far)
            greater = square_at(tip_x - across * (far + 1), tip_y - down * (far + 1))
            signs.append((greater[1] * size + greater[0], less[1] * size + less[0]))
    givens, numbers = in_order(size, {square_at(digit.x, digit.y): digit for digit in found})
    assert len(set(signs)) == len(signs)
    return Picture(UnequalPuzzle(size, tuple(givens), frozenset(signs)), numbers)


def in_order(size: int, found: Dict[Tuple[int, int], Digit]) -> Tuple[List[int], List[int]]:
    """The given numbers in reading order, and all numbers."""
    ordered = [found.get((x, y)) for y in range(size) for x in range(size)]
    return [digit.number if digit and digit.is_bold else 0 for digit in ordered], [digit.number if digit else 0 for digit in ordered]
