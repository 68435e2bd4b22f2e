"""The lengths, the style, the rules and the words of sheets, which stand in sheet/, as a module of the page: so that its sheets are those of the command."""

from __future__ import annotations

import json
from pathlib import Path
from types import ModuleType
from typing import Any, Dict

from playing.cards import CARDS
from sheet import answers, choice, drawing, examples, layout, listing, markup, measures, pages, seeds, steps, style, titles

#: The module that is made.
MODULE = Path(__file__).resolve().parent.parent.parent / 'page' / 'sheet_tables.js'

HEAD = """\
// Lengths, style, rules and words of sheets on paper: tools/texts makes this file of the tables in sheet/.

/** @type {any} */
export const TABLES = {
"""


def module() -> str:
    """The module's text."""
    lines = [f'  {name}: {json.dumps(table, ensure_ascii=False, separators=(",", ":"))},\n' for name, table in tables().items()]
    return HEAD + ''.join(lines) + '};\n'


def tables() -> Dict[str, Any]:
    return {
        'PAPERS': {name: paper._asdict() for name, paper in measures.PAPERS.items()},
        'PRINTS': {'usual': measures.USUAL._asdict(), 'large': measures.LARGE._asdict()},
        'DENSITIES': {'usual': [each._asdict() for each in measures.DENSITIES], 'large': [each._asdict() for each in measures.LARGE_DENSITIES]},
        'GRIDS': [[each._asdict() for each in measures.grids(puzzles)] for puzzles in range(measures.TWELVE.puzzles + 1)],
        'LENGTHS': {'LEAST_SIDE': measures.LEAST_SIDE, **{name: length for name, length in vars(measures).items() if isinstance(length, int)}},
        'TITLES': of(titles, 'SPACE NARROW SMALL CAPITAL WIDE ANY NARROW_LETTERS WIDE_LETTERS TEXT_WIDTHS TEXT_ANY'),
        **of(markup, 'WIDE'),
        'ANSWERS': {
            **{name: squares._asdict() for name, squares in (('usual', answers.USUAL), ('ordered', answers.ORDERED), ('large', answers.LARGE))},
            **of(answers, 'LINES ORDER'),
        },
        'DRAWING': of(drawing, 'OUTSIDE BETWEEN CLUE DEPTH HEIGHT EDGE EDGE_FONT ORDER ORDER_LEFT BASELINE LINES DIGITS THICK THIN'),
        'LISTING': {**of(listing, 'SQUARES LEFT_OUT'), **of(steps, 'TERMS NO_MORE FIRST')},
        'LESSONS': {
            **of(examples, 'BESIDE BELOW FRAMED'),
            'TITLES': {game: [[card.title, card.text] for card in cards] for game, cards in CARDS.items()},
        },
        'CHOICE': {**of(choice, 'MOST ALIKE LIKE REPEATED FEWER'), **of(seeds, 'STRIDE TRIES UNEVEN ONE')},
        **of(layout, 'CALLED RULES ANY_SIZE MOST_NOTES STEP'),
        **of(pages, 'KINDS CUT_CAPTION LONG_NAME POLICY'),
        'STYLE': style.STYLE.template,
        'NAMES': style.NAMES.template,
    }


def of(table: ModuleType, names: str) -> Dict[str, Any]:
    """Some of what a module has."""
    return {name: getattr(table, name) for name in names.split()}
