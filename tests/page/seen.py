"""The page as it is seen, and the texts that the browser keeps of it."""

import json
import re
from typing import Any, Dict, List, Sequence, Tuple

from tests.harness import Driver

#: The name of each text that is kept in the browser begins so.
OURS = 'puzzles:'

#: Until what was asked for so far is done and seen: the clock of the frames goes on twice.
PAINTED = 'new Promise((done) => requestAnimationFrame(() => requestAnimationFrame(() => done(true))))'


#: The database that has each change beside the browser's store.
JOURNAL = 'verified-puzzles'


def at(x: int, y: int) -> str:
    return f'[data-place="{x},{y}"]'


def place_of(name: str) -> str:
    """The selector of the square or clue that a name tells of."""
    found = dict(re.findall(r'(row|column) (\d)', name))
    return at(int(found.get('column', 0)) - 1, int(found.get('row', 0)) - 1)


#: The conditions that are waited for: that a text is told, stands below the title, is the title, stands on a page of text, is the desk's verdict, is among
#: its grounds, or is said to readers of screens.
WAITS = {
    'told': ('#told', '.includes({})'),
    'counts': ('#count', '.includes({})'),
    'called': ('#title', ' === {}'),
    'reads': ('#page[open] #page-text', '.includes({})'),
    'ruled': ('#ruling', ' === {}'),
    'grounds': ('#grounds', '.includes({})'),
    'said': ('#said', '.includes({})'),
}


class Seen:
    """One page as it is seen in one browser, and the texts that that browser keeps."""

    def __init__(self, driver: Driver, address: str) -> None:
        self.driver = driver
        self.address = address

    def value(self, expression: str) -> Any:
        return self.driver.value(expression)

    def text(self, selector: str) -> str:
        return str(self.value(f'document.querySelector({json.dumps(selector)}).textContent'))

    def name(self, name: str) -> str:
        """The present name of the square or clue of a name."""
        return str(self.value(f'document.querySelector({json.dumps(place_of(name))}).getAttribute("aria-label")'))

    def chosen(self) -> Tuple[int, int]:
        """The square or clue that has the focus."""
        x, y = self.value('document.activeElement.dataset.place').split(',')
        return int(x), int(y)

    def waits(self, what: str, text: str) -> None:
        """By a word of `WAITS`, or a method below."""
        if what in WAITS:
            selector, holds = WAITS[what]
            self.driver.wait_for(f'document.querySelector({json.dumps(selector)})?.textContent{holds.format(json.dumps(text))}')
        else:
            getattr(self, what)(text)

    def is_called(self, name: str) -> None:
        """Waits until the square or clue that a name tells of is called so; or, with `..` at the end, until what it is called begins so."""
        begins = name[:-2] if name.endswith('..') else ''
        wanted = f'.startsWith({json.dumps(begins)})' if begins else f' === {json.dumps(name)}'
        self.driver.wait_for(f'document.querySelector({json.dumps(place_of(name))}).getAttribute("aria-label"){wanted}')

    def js(self, condition: str) -> None:
        self.driver.wait_for(condition)

    def matches(self, selector: str) -> None:
        """Waits until there is such an element."""
        self.driver.wait_for(f'document.querySelector({json.dumps(selector)})')

    def lacks(self, selector: str) -> None:
        """Waits until there is none, once what was done is seen."""
        self.settles()
        self.driver.wait_for(f'!document.querySelector({json.dumps(selector)})')

    def stays(self, name: str) -> None:
        """Once what was done is seen a square is called so still."""
        self.settles()
        assert self.name(name).startswith(name[:-2]) if name.endswith('..') else self.name(name) == name

    def moved(self, moves: str) -> None:
        """The last game has these moves."""
        assert self.moves() == moves.split()

    def chose(self, place: str) -> None:
        """That square or clue has the focus."""
        assert self.value('document.activeElement.dataset.place') == place

    def games(self, number: str) -> None:
        """So many are kept."""
        assert len(self.kept()) == int(number)

    def has(self, number: int, selector: str) -> None:
        """Waits until there are so many elements."""
        self.driver.wait_for(f'document.querySelectorAll({json.dumps(selector)}).length === {number}')

    def is_shown(self, selector: str) -> None:
        """Waits until an element is there and has room."""
        self.driver.wait_for(f'(document.querySelector({json.dumps(selector)})?.getClientRects().length ?? 0) > 0')

    def is_gone(self, selector: str) -> None:
        self.driver.wait_for(f'(document.querySelector({json.dumps(selector)})?.getClientRects().length ?? 0) === 0')

    def settles(self) -> None:
        """Waits until what was done is seen."""
        self.value(PAINTED)

    def kept(self) -> List[Dict[str, Any]]:
        """The games that the browser keeps, the last one first."""
        texts = self.value(f'Object.keys(localStorage).filter((name) => name.startsWith("{OURS}game:")).map((name) => localStorage[name])')
        return sorted((json.loads(text) for text in texts), key=lambda game: -float(game['when']))

    def keeps(self, moves: Sequence[int]) -> None:
        """How many moves each kept game comes to have, in rising order."""
        counts = f'Object.keys(localStorage).filter((name) => name.startsWith("{OURS}game:"))'
        counts += '.map((name) => JSON.parse(localStorage[name]).save.split("\\nMOVE ").length - 1).sort()'
        self.driver.wait_for(f'JSON.stringify({counts}) === {json.dumps(json.dumps(moves, separators=(",", ":")))}')

    def moves(self) -> List[str]:
        """Those of the save of the last game."""
        lines = str(self.kept()[0]['save']).split('\n')
        return [line.split(':', 2)[2] for line in lines if line.startswith('MOVE    :')]
