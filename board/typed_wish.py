"""A line by which the setter's desk thins out, read as a wish."""

from __future__ import annotations

from typing import Dict, Optional, Tuple

from playing import shared_texts
from playing.games import GRADES
from playing.setting import CLUES, NUMBERS, Wish, grades

#: The word for a puzzle that needs just have one solution.
ANY = 'any'


def wish_in(text: str, game: str, letter: str) -> Optional[Wish]:
    """The wish in words, as `hard clues first half turn`, of a puzzle of this grade; nothing where a word is another."""
    found = Wish(letter)
    known: Dict[str, Tuple[str, str]] = {
        **{name: ('letter', own) for own, name in GRADES[game].items() if own in grades(game, '') or own in grades(game, letter)},
        ANY: ('letter', ''),
        **dict.fromkeys((NUMBERS, 'givens'), ('first', NUMBERS)),
        **dict.fromkeys((CLUES, 'signs'), ('first', CLUES)),
        **{called.split()[0]: ('symmetry', name) for name, called in shared_texts.SYMMETRIES.items()},
    }
    for word in text.lower().split():
        if word not in (*known, 'first', 'turn'):
            return None
        found = found._replace(**dict([known[word]] if word in known else []))
    return found
