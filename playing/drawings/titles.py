"""Lines beside drawings: words, IDs, and clues with the names of their sides."""

from __future__ import annotations

import re
from typing import List, NamedTuple, Optional, Tuple

from playing.drawings.tables import OTHERS, SIGNS
from playing.naming import GAME_NAMES

SIDES = {'top': 'top|above|north|up', 'bottom': 'bottom|below|south|down', 'left': 'left|west', 'right': 'right|east'}
CLUES_OF = ')|('.join(SIDES.values())
NAMED = re.compile(rf'\W*(?:(?:clues?|from|on|at|the)\W+)*(?:({CLUES_OF}))(?:\W+(?:clues?|side|row|column))*\s*[:=]?\s*([^A-Za-z:]*)', re.IGNORECASE)

#: An ID that begins a line, perhaps in quotes or after a number, with the name of its game before it, or by its form; and one among words.
GAME = '|'.join(GAME_NAMES)
AFTER_GAME = rf"""({GAME})[\s:]+["']?([0-9][^\s"']*[:!#][^\s"']*)"""
BY_FORM = r"""([0-9]+[a-z]*:[^\s"']*[/,][^\s"']*|[0-9]+[a-z]*[!#][^\s"']+|[3-9](?:d[a-z])?:\w[^\s"']*)"""
ID_FIRST = re.compile(rf"""[\s"'>]*(?:(?:[0-9]{{1,3}}[.)]|[-*•])\s+)?["']?(?:{AFTER_GAME}|{BY_FORM})""", re.IGNORECASE)
ID_INSIDE = re.compile(rf'(?:({GAME}):)?(?<![\w./,])([3-9](?:d[a-z])?(?::[\w/,]*[/,][\w/,]*|![0-9]+))', re.IGNORECASE)

#: A comment, the number of a puzzle, and what stands around a drawing.
TITLE = re.compile(r'#\s*[0-9]*$|#.*[^\W\d_]{2}|\s*//.*[^\W\d_]{2}|\s*\(?[0-9]{1,3}[):]\s*$|\s*(```|~~~)|\s*[=#~]{3,}\s*$')

#: With nothing directly above and below a line may also be that.
ALONE = re.compile(r'\s*([0-9]{1,3}\.|-{3,}|\*{3,}|_{3,})\s*')

#: Letters that may stand in a drawing, and so make no words; and all that it is of.
DRAWN_LETTERS = frozenset('xXvVAΛoO')
DRAWN = frozenset(''.join([*OTHERS, *OTHERS.values(), SIGNS]))


class Id(NamedTuple):
    """An ID, and the game that is named before it, if one is. The rest of the line is a caption."""

    game: str
    text: str


def side_of(line: str) -> Optional[Tuple[str, str]]:
    """The side that a line names, and its clues."""
    found = NAMED.fullmatch(line)
    return ([*SIDES][[bool(part) for part in found.groups()[:-1]].index(True)], found[5]) if found else None


def id_in(line: str) -> Optional[Id]:
    first = ID_FIRST.match(line)
    if first:
        return Id(GAME_NAMES[first[1].lower()] if first[1] else '', first[2] or first[3])
    inside = ID_INSIDE.search(line)
    return Id(GAME_NAMES[inside[1].lower()] if inside[1] else game_in(line[: inside.start()]), inside[2]) if inside else None


def game_in(line: str) -> str:
    """The game that words name, if they name one alone."""
    games = {GAME_NAMES[word] for word in re.findall(r'[a-z]+', line.lower()) if word in GAME_NAMES}
    return games.pop() if len(games) == 1 else ''


def is_title(line: str) -> bool:
    """Whether the line has words, and isn't drawn."""
    if TITLE.match(line):
        return True
    runs = _runs(line)
    if set(runs) == {'all'} and sum(letter in '|│┃' for letter in line) > 2:
        # Pencil marks, as the board has them.
        return False
    has_words = any(sum(letter not in DRAWN_LETTERS for letter in run) > 1 for run in runs)
    first = line.split()[:3]
    return has_words and not (len(first) == 3 and all(word in DRAWN for word in first))


def _runs(line: str) -> List[str]:
    """Letters that stand side by side."""
    return ''.join(letter if letter.isalpha() else ' ' for letter in line).split()
