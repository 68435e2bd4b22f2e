"""The sentences of playing/shared_texts.py, and the cards of playing/cards.py, as a module of the page."""

from __future__ import annotations

from pathlib import Path
from typing import Dict, List, Union

from playing import shared_texts
from playing.cards import CARDS

#: The module that is made.
MODULE = Path(__file__).resolve().parent.parent.parent / 'page' / 'shared_texts.js'

HEAD = '// Sentences that the board in a terminal says, too: tools/texts makes this file of playing/shared_texts.py and playing/cards.py.\n'

#: Above the cards of the course.
HEAD_OF_CARDS = """
// Of each game the cards of the course: the ID of a board, and what to look for.
/** @type {Record<import('./turns.js').Game, [id: string, text: string][]>} */
"""


def module() -> str:
    """The module's text."""
    found: Dict[str, Union[str, Dict[str, str]]] = {name: value for name, value in vars(shared_texts).items() if name.isupper()}
    lines: List[str] = []
    for name, value in found.items():
        if isinstance(value, str):
            lines.append(f'export const {name} = {quoted(value)};\n')
        else:
            entries = ''.join(f'  {key}: {quoted(text)},\n' for key, text in value.items())
            lines.append(f'export const {name} = {{\n{entries}}};\n')
    return HEAD + '\n' + ''.join(lines) + HEAD_OF_CARDS + cards()


def cards() -> str:
    lines = ['export const CARDS = {\n']
    for game, found in CARDS.items():
        lines += [f'  {game}: [\n', *(f'    [{quoted(card.id)}, {quoted(card.text)}],\n' for card in found), '  ],\n']
    return ''.join([*lines, '};\n'])


def quoted(text: str) -> str:
    """A text of the page, which has the apostrophe of print."""
    assert '\\' not in text and '\n' not in text, text
    return "'" + text.replace("'", '’') + "'"
