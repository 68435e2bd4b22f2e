"""The menu of new games: game, size, grade or an ID, and the number of a game that is made."""

from __future__ import annotations

from typing import List, NamedTuple, Optional

from board.dialogues import LEAVING, Dialogues
from board.picture import Piece, Style, wrapped
from board.screen import Screen
from playing import fair, games
from playing.board import GAMES
from playing.choices import FIRST_GRADE, WRONG_NUMBER, Choice, remembered
from playing.state import State
from playing.typed import is_number

BY_ID = 'by an ID or a seed'

#: Ways to come by the number, if none is typed.
BY_CHANCE, TODAYS, TYPED = 'random', "today's", 'typed'

#: A window that has fewer lines has none free between those of the menu.
LOW = 18

#: Where the values of a line begin.
VALUES = 10


class Row(NamedTuple):
    title: str
    values: List[str]
    chosen: str


class Menu:
    """Up and down go through the lines, left and right change what one says, Enter begins the game. Digits are a size, or a number in its line."""

    title = 'A new game'

    def __init__(self, screen: Screen, state: State, present: Choice) -> None:
        """A game as the present one is chosen at first."""
        self._screen = screen
        self._state = state
        self._line = 2
        self._number = BY_CHANCE
        #: The digits of a number that is typed.
        self._digits = ''
        #: Why what was chosen last doesn't begin.
        self._sentence = ''
        self._take(present)

    def run(self, sentence: str = '') -> Optional[Choice]:
        """The player's choice; nothing where another key went back. It may be run again, with a sentence on why that didn't begin."""
        self._sentence = sentence
        while True:
            self._screen.paint(self._pieces())
            name = self._screen.key().name
            if name != 'resize':
                self._sentence = ''
            if name in ('up', 'k', 'down', 'j'):
                self._line = (self._line + (1 if name in ('down', 'j') else -1)) % len(self._rows())
            elif name in ('left', 'h', 'right', 'l', ' '):
                self._change(-1 if name in ('left', 'h') else 1)
            elif self._line == 3 and (is_number(name) or name in ('backspace', 'delete')):
                self._type(name)
            elif is_number(name) and int(name) in games.SIZES:
                self._size = int(name)
                self._keep_kind()
            elif name == 'enter':
                choice = self._choice()
                if choice:
                    return choice
            elif name == 'q' or name in LEAVING:
                return None

    def _take(self, choice: Choice) -> None:
        self._game, self._size, self._kind = choice.game, choice.size, choice.grade
        self._keep_kind()

    def _kinds(self) -> List[str]:
        return [*(games.GRADES[self._game][letter] for letter in games.letters(self._game, self._size)), BY_ID]

    def _keep_kind(self) -> None:
        kinds = self._kinds()
        if self._kind not in kinds:
            self._kind = FIRST_GRADE if FIRST_GRADE in kinds else kinds[0]
        self._line = min(self._line, len(self._rows()) - 1)

    def _has_number(self) -> bool:
        return self._kind != BY_ID and Choice(self._game, self._size, self._kind).is_fair

    def _change(self, step: int) -> None:
        if self._line == 0:
            game = next(game for game in GAMES if game != self._game)
            self._take(remembered(self._state, game) or Choice(game, self._size, self._kind))
        elif self._line == 1:
            self._size = (self._size - games.SIZES[0] + step) % len(games.SIZES) + games.SIZES[0]
        elif self._line == 2:
            self._kind = moved(self._kinds(), self._kind, step)
        else:
            self._number = moved([BY_CHANCE, TODAYS, TYPED], self._number, step)
        self._keep_kind()

    def _type(self, key: str) -> None:
        """Digits, as far as they are a number."""
        digits = self._digits[:-1] if not is_number(key) else key if self._digits in ('', '0') else self._digits + key
        if not digits or fair.seed_of(digits) is not None:
            self._digits, self._number = digits, TYPED
        else:
            self._sentence = WRONG_NUMBER

    def _choice(self) -> Optional[Choice]:
        if self._kind != BY_ID:
            choice = Choice(self._game, self._size, self._kind)
            if not self._has_number() or self._number == BY_CHANCE:
                return choice
            if self._number == TYPED and not self._digits:
                self._sentence = 'Type the number: digits.'
                return None
            return choice._replace(number=fair.today() if self._number == TODAYS else int(self._digits))
        text = Dialogues(self._screen, self._pieces).read('ID, or a number as the seed:')
        if not text:
            return None
        return Choice(self._game, self._size, id=f'{self._size}!{text}' if text.isdecimal() else text)

    def _rows(self) -> List[Row]:
        rows = [
            Row('Game', list(GAMES.values()), GAMES[self._game]),
            Row('Size', [str(size) for size in games.SIZES], str(self._size)),
            Row('Kind', self._kinds(), self._kind),
        ]
        if self._has_number():
            texts = {BY_CHANCE: BY_CHANCE, TODAYS: f'{TODAYS}: {fair.today()}', TYPED: f'{TYPED}: {self._digits or ".."}'}
            rows.append(Row('Number', list(texts.values()), texts[self._number]))
        return rows

    def _pieces(self) -> List[Piece]:
        lines, columns = self._screen.size
        pieces = [Piece(0, 1, self.title, Style.TITLE)]
        line = 2
        for at, row in enumerate(self._rows()):
            pieces.append(Piece(line, 1, ('> ' if at == self._line else '  ') + row.title, Style.TITLE if at == self._line else Style.PLAIN))
            column = VALUES
            for value in row.values:
                is_chosen = value == row.chosen
                text = f'[{value}]' if is_chosen else f' {value} '
                if column + len(text) > columns:
                    line, column = line + 1, VALUES
                pieces.append(Piece(line, column, text, Style.GIVEN if is_chosen else Style.PLAIN, is_chosen and at == self._line))
                column += len(text)
            line += 1 if lines < LOW else 2
        if self._sentence:
            for part in wrapped(self._sentence, columns - 2):
                pieces.append(Piece(line, 1, part, Style.TITLE))
                line += 1
        for text in [*self._notes(), 'Arrows choose, Escape or q goes back.']:
            for part in wrapped(text, columns - 2) or ['']:
                pieces.append(Piece(line, 1, part))
                line += 1
        return pieces

    def _notes(self) -> List[str]:
        return [self._note(), games.bank_trouble(self._game), 'Enter begins it; the present game is put away.']

    def _note(self) -> str:
        if self._kind == BY_ID:
            return "5:.. or 5!7, or the number after the '!'"
        if self._has_number():
            if self._line == 3 and self._number == TYPED:
                return 'Type the number: the same one is always the same game.'
            return 'the date, for everybody' if self._number == TODAYS else 'each number is another game, and none needs a guess'
        letter = Choice(self._game, self._size, self._kind).letter
        new, all_ = games.unplayed(self._state, self._game, self._size, letter)
        return self._state.played_trouble(self._game) or f'{all_} puzzles, {new} of them new to you'


def moved(values: List[str], value: str, step: int) -> str:
    """The next value or the one before; after the last one comes the first."""
    return values[(values.index(value) + step) % len(values)]
