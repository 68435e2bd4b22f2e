"""The forms in which puzzles of both games are drawn, by name."""

from __future__ import annotations

from typing import Dict, List, NamedTuple, Sequence

from tests.drawings.puzzles import Puzzle

Rows = List[List[str]]

#: The symbols that people write for an empty square.
EMPTY = '_0x*?-o'


class Rules(NamedTuple):
    """The characters of ruled lines: the lines, and the corners where they meet, row by row."""

    lying: str
    standing: str
    first: str
    middle: str
    last: str


RULES = {'ascii grid': Rules('-', '|', '+++', '+++', '+++'), 'box grid': Rules('─', '│', '┌┬┐', '├┼┤', '└┴┘')}


def text(lines: Sequence[str]) -> str:
    return ''.join(f'{line}\n' for line in lines)


def spaced(rows: Rows, between: str = ' ') -> str:
    return text([between.join(row) for row in rows])


def stripped(drawing: str) -> str:
    return text([line.rstrip() for line in drawing.splitlines()])


def around(drawing: str) -> Dict[str, str]:
    """The same with what may be around a drawing, or in place of its letters."""
    return {
        'CRLF': drawing.replace('\n', '\r\n'),
        'a mark at the beginning': '\ufeff' + drawing,
        'a fence': f'```\n{drawing}```\n',
        'a title': f'Puzzle 1 (easy)\n{drawing}',
        'a title and a comment': f'# Puzzle 1\n\n{drawing}\n# end\n',
        'indented': text(['    ' + line for line in drawing.splitlines()]),
        'quoted': text(['> ' + line for line in drawing.splitlines()]),
        'blanks at the ends': drawing.replace('\n', '   \n'),
        'fixed blanks': drawing.replace(' ', '\xa0'),
        'middle dots': drawing.replace('.', '·'),
        'boxes': drawing.replace('.', '□'),
    }


def ruled(squares: Rows, rules: Rules, width: int, walls: Sequence[str] = (), signs: Sequence[str] = ()) -> List[str]:
    """Squares with lines around; in place of walls and in the lines between there may be signs."""
    size = len(squares)

    def line(ends: str, y: int = -1) -> str:
        own = [rules.lying * width] * size
        if 0 <= y < len(signs):
            own = [sign.center(width, rules.lying) if sign != ' ' else rules.lying * width for sign in signs[y]]
        return ends[0] + ends[1].join(own) + ends[2]

    def row(y: int) -> str:
        between = [wall if wall != ' ' else rules.standing for wall in (walls[y] if walls else ' ' * (size - 1))]
        cells = [symbol.center(width) for symbol in squares[y]]
        return rules.standing + ''.join(cell + wall for cell, wall in zip(cells, [*between, rules.standing]))

    inner = [part for y in range(size) for part in (row(y), line(rules.middle, y))][:-1]
    return [line(rules.first), *inner, line(rules.last)]


# --- Towers ---


def table(puzzle: Puzzle, none: str = '-', empty: str = '.', corner: str = '+') -> Rows:
    """The squares with all four sides around."""
    size = puzzle.size

    def symbol(x: int, y: int) -> str:
        is_outside = (x in (-1, size)) + (y in (-1, size))
        numbers = puzzle.clues if is_outside else puzzle.givens
        return corner if is_outside == 2 else str(numbers.get((x, y), none if is_outside else empty))

    return [[symbol(x, y) for x in range(-1, size + 1)] for y in range(-1, size + 1)]


def ruled_towers(puzzle: Puzzle, rules: Rules, empty: str, none: str) -> str:
    rows = table(puzzle, none, empty, ' ')
    lines = ruled([row[1:-1] for row in rows[1:-1]], rules, 3)
    for at, row in enumerate(rows[1:-1]):
        lines[2 * at + 1] = f'{row[0]} {lines[2 * at + 1]} {row[-1]}'
    inner = [line if at % 2 else f'  {line}' for at, line in enumerate(lines)]
    return stripped(text(['    ' + '   '.join(rows[0][1:-1]), *inner, '    ' + '   '.join(rows[-1][1:-1])]))


def copied_towers(puzzle: Puzzle) -> str:
    """As the usual program does: two blanks before the clues above and below, an empty line, and two between the squares and the clues beside."""
    rows = table(puzzle, ' ', ' ', ' ')
    ends = ['  ' + ''.join(f' {symbol}' for symbol in row[1:-1]) for row in (rows[0], rows[-1])]
    return text([ends[0], '', *(f'{row[0]} ' + ''.join(f' {symbol}' for symbol in row[1:-1]) + f'  {row[-1]}' for row in rows[1:-1]), '', ends[1]])


def boxed_towers(puzzle: Puzzle, wide: bool) -> str:
    """A box around squares that are blank, and clues outside."""
    rows, between = table(puzzle, '-', ' ', ' '), ' ' if wide else ''
    inner = [between + between.join(row[1:-1]) + between for row in rows]
    rule = f'  +{"-" * len(inner[1])}+'
    return stripped(text([f'   {inner[0]}', rule, *(f'{row[0]} |{own}| {row[-1]}' for row, own in zip(rows[1:-1], inner[1:-1])), rule, f'   {inner[-1]}']))


def numbers_alone(puzzle: Puzzle, step: int, left: int, top: int) -> str:
    """Nothing in empty squares and for no clue: the step between two columns, and how far the squares are from what is left of them, and above."""
    size = puzzle.size
    xs, ys = [0, *(left + step * x for x in range(size)), 2 * left + step * (size - 1)], [0, *(top + y for y in range(size)), 2 * top + size - 1]
    places = {(xs[x + 1], ys[y + 1]): str(number) for (x, y), number in [*puzzle.clues.items(), *puzzle.givens.items()]}
    return stripped(text([''.join(places.get((x, y), ' ') for x in range(xs[-1] + 1)) for y in range(ys[-1] + 1)]))


def plain_towers(puzzle: Puzzle) -> Dict[str, str]:
    """Without ruled lines."""
    found = {'show': spaced(table(puzzle)), 'corners, no spaces': spaced(table(puzzle), '')}
    for none, called in (('-', 'a dash'), (' ', 'nothing'), ('.', 'a dot')):
        rows = table(puzzle, none, '.', ' ')
        inner = [' '.join(row[1:-1]) for row in rows]
        found[f'blank corners, no clue is {called}'] = stripped(spaced(rows))
        between = [f'{row[0]}   {own}   {row[-1]}' for row, own in zip(rows[1:-1], inner[1:-1])]
        found[f'wide, no clue is {called}'] = stripped(text([f'    {inner[0]}', '', *between, '', f'    {inner[-1]}']))
        found[f'no spaces, no clue is {called}'] = stripped(spaced(rows, ''))
        barred = [f'{row[0]} | {own} | {row[-1]}' for row, own in zip(rows[1:-1], inner[1:-1])]
        rule = '   ' + '-' * (2 * puzzle.size + 1)
        found[f'bars, no clue is {called}'] = stripped(text([f'    {inner[0]}', rule, *barred, rule, f'    {inner[-1]}']))
    for empty in EMPTY:
        found[f'empty is {empty}'] = spaced(table(puzzle, '-', empty))
        found[f'empty and no clue are {empty}'] = spaced(table(puzzle, empty, empty))
        found[f'blank corners, both are {empty}'] = stripped(spaced(table(puzzle, empty, empty, ' ')))
    return found


def celled_towers(puzzle: Puzzle) -> Dict[str, str]:
    """As a table of cells."""
    rows = table(puzzle, '', '', '')
    quoted = [','.join(f'"{cell}"' if cell else '' for cell in row) for row in rows]
    barred = ['| ' + ' | '.join(row) + ' |' for row in table(puzzle, ' ', ' ', ' ')]
    return {
        'tabs for spaces': spaced(table(puzzle), '\t'),
        'tabs': spaced(rows, '\t'),
        'commas': spaced(rows, ','),
        'semicolons': spaced(rows, ';'),
        'quotes': text(quoted),
        'zeros': spaced(table(puzzle, '0', '0', ''), ','),
        'numbers with a point': spaced([[f'{cell}.0' if cell else '' for cell in row] for row in rows], ','),
        'markdown': text([barred[0], '|' + '---|' * len(rows), *barred[1:]]),
    }


def named_sides(puzzle: Puzzle) -> Dict[str, str]:
    """Clues alone, with the names of their sides."""
    rows = table(puzzle)
    sides = {'top': rows[0][1:-1], 'left': [row[0] for row in rows[1:-1]], 'right': [row[-1] for row in rows[1:-1]], 'bottom': rows[-1][1:-1]}
    return {
        'lists': text([f'{side}: {" ".join(clues)}' for side, clues in sides.items()]),
        'lists in another order': text([f'{side.title()} clues = {"".join(sides[side])}' for side in ('bottom', 'right', 'top', 'left')]),
        'lists with commas': text([f'From the {side}: {", ".join(sides[side])}' for side in ('left', 'top', 'right', 'bottom')]),
    }


def towers(puzzle: Puzzle) -> Dict[str, str]:
    found = {**plain_towers(puzzle), **celled_towers(puzzle), **around(spaced(table(puzzle)))}
    for called, rules in RULES.items():
        for empty, none in (('.', '-'), ('.', ' '), (' ', '-'), (' ', ' '), (' ', '.')):
            found[f"{called}, '{empty}' and '{none}'"] = ruled_towers(puzzle, rules, empty, none)
    found.update({f'a box, {called}': boxed_towers(puzzle, wide) for called, wide in (('wide', True), ('narrow', False))})
    copy = copied_towers(puzzle)
    found.update({'as the usual program copies': copy, 'below a name': f'Skyscrapers\n\n{spaced(table(puzzle, "-", ".", " "))}\nMonday\n'})
    if not puzzle.givens:
        found.update(named_sides(puzzle))
    return found


# --- Unequal ---


def signs_of(puzzle: Puzzle, x: int, y: int, dx: int, dy: int, none: str) -> str:
    pair = ((x, y), (x + dx, y + dy))
    greater, less = '>v' if dx else 'v ', '<^' if dx else '^ '
    return (greater[0] if pair in puzzle.signs else less[0] if (pair[1], pair[0]) in puzzle.signs else none)


def full(puzzle: Puzzle, none: str = '-', empty: str = '.') -> Rows:
    """Squares at each second place, and signs between: a blank where none lies, and `none` where none stands."""
    size, rows = puzzle.size, []
    for y in range(size):
        row = [[str(puzzle.givens.get((x, y), empty)), signs_of(puzzle, x, y, 1, 0, ' ')] for x in range(size)]
        rows.append([symbol for pair in row for symbol in pair][:-1])
        rows.append([symbol for x in range(size) for symbol in (signs_of(puzzle, x, y, 0, 1, none), ' ')][:-1])
    return rows[:-1]


def drawn_unequal(puzzle: Puzzle, none: str = '-', empty: str = '.') -> str:
    return spaced(full(puzzle, none, empty), '')


def boxed(puzzle: Puzzle) -> str:
    """Each square in brackets."""
    rows = full(puzzle, ' ', ' ')
    lines = [''.join(f'[{symbol}]' if not x % 2 else symbol for x, symbol in enumerate(row)) if not y % 2 else ' ' + '   '.join(row[::2]) for y, row in enumerate(rows)]
    return stripped(text(lines))


def unequal(puzzle: Puzzle) -> Dict[str, str]:
    show, bare = drawn_unequal(puzzle), drawn_unequal(puzzle, ' ')
    is_signed = [bool(set(line) & set('^v')) or not at % 2 for at, line in enumerate(show.splitlines())]
    found = {
        'show': show,
        'lines without signs are blank': text([line if is_own else '' for line, is_own in zip(show.splitlines(), is_signed)]),
        'lines without signs are left out': stripped(text([line for line, is_own in zip(bare.splitlines(), is_signed) if is_own])),
        'no dashes': stripped(bare),
        'as the usual program copies': bare,
        'letters for signs': show.replace('^', 'A').replace('v', 'V'),
        'signs of logic': show.replace('^', '∧').replace('v', '∨'),
        'wide letters': show.translate(str.maketrans('.^<>-', '．＾＜＞－')),
        'wide signs': show.replace('^', '˄').replace('v', '˅').replace('<', '＜').replace('>', '＞'),
        'spaced': spaced(full(puzzle)),
        'spaced, no dashes': stripped(spaced(full(puzzle, ' '))),
        'boxes [ ]': show.replace('.', '[ ]'),
        'all in boxes': boxed(puzzle),
        'commas': spaced([[symbol.strip() for symbol in row] for row in full(puzzle, ' ', ' ')], ','),
        'tabs': spaced([[symbol.strip() for symbol in row] for row in full(puzzle, ' ', ' ')], '\t'),
        'below a name': f'Futoshiki 12\n{show}',
        **around(show),
    }
    for empty in EMPTY:
        found[f'empty is {empty}'] = drawn_unequal(puzzle, '-', empty)
        found[f'empty is {empty}, no dashes'] = stripped(drawn_unequal(puzzle, ' ', empty))
    rows = full(puzzle, ' ', ' ')
    for called, rules in RULES.items():
        found[called] = text(ruled([row[::2] for row in rows[::2]], rules, 5, [''.join(row[1::2]) for row in rows[::2]], [''.join(row[::2]) for row in rows[1::2]]))
    return found


def forms(puzzle: Puzzle) -> Dict[str, str]:
    """Each form of a puzzle."""
    return towers(puzzle) if puzzle.game == 'towers' else unequal(puzzle)
