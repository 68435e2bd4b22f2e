"""The setter's desk on the board, in the place of a game: keys put in clues, givens and signs, and the verdict stays below."""

from __future__ import annotations

import time
from functools import partial
from typing import Callable, Dict, List, Mapping, Optional

from board import desk_picture, keys, manual, speech
from board.dialogues import moving
from board.file_names import file_name
from board.fullscreen import FullScreen
from board.keys import Key
from board.menu import Menu
from board.picture import Look, Piece, name
from board.screen import Screen
from board.thin_menu import ThinMenu
from playing import shared_texts
from playing.board import GAMES, Board
from playing.choices import Choice
from playing.desk import Desk
from playing.game import Game
from playing.naming import Place
from playing.naming import name as called
from playing.state import SavedGame

#: The lines of keys, in as many words as there is room for.
WAYS = [
    '  0 none  u r undo  h why  S show  M thin  F fill  p play  o w file  i ID  n new  E back  ? keys',
    '  u undo  h why  S show  M thin  F fill  p play  w file  i ID  E back ?',
    '  h why  S show  M thin  p play  E back  ? keys',
    '  E back  ? keys',
]
DIGITS = {'towers': '1-9', 'unequal': '1-9<>^v'}

#: The ways to begin a board, by the menu's words for them.
BLANK, DRAFT, PRESENT = 'blank', 'as it was left', "the game's puzzle"
NOTES = {
    BLANK: 'A board without items. u brings back what was there before.',
    DRAFT: 'What was set there last, of whatever size.',
    PRESENT: 'The puzzle that is played, to be changed. The game stays as it is.',
}

GOES_ON = 'This is your draft. n begins another board.'
NOT_HERE = 'That is for games: ? shows the keys of the desk.'
NO_NEIGHBOUR = 'No square is {side} {square}: < and > stand right of the chosen square, ^ and v below it.'

#: Actions of the board that are the same here.
SAME = (
    'clear', 'next square', 'square before', 'hint', 'why', 'save as', 'show ID', 'help', 'quit', 'lines', 'suspend', 'redraw', 'mouse', 'resize'
)


class GameScreen(FullScreen):
    """The board of a game, whose place the desk may take."""

    def _all_actions(self) -> Dict[str, Callable[[], object]]:
        return {**super()._all_actions(), 'desk': self._sit}

    def run(self) -> None:
        if self.game.at_desk or self.game.drawn:
            self._screen.give_back(Key('E'))
        super().run()

    def _sit(self) -> None:
        """The desk, until it is left, or its puzzle is to be played."""
        game, desk = self.game, Desk(self.game.path)
        front = DeskScreen(self._screen, desk, game)
        desk.drawn, game.drawn = game.drawn, None
        if not desk.turn_to(game.at_desk or game.kind, game.board.size):
            game.message = desk.message
            return
        if desk.drawn:
            desk.take_drawn()
        elif desk.has_items:
            desk.message = f'{desk.message} {GOES_ON}'.strip()
        elif not game.at_desk:
            front.choose_board()
        front.run()
        self._screen.games = self._games()
        game.at_desk = front.draft_of
        self.wants_lines = self._is_over = bool(front.draft_of)
        if front.choice:
            self._begin(front.choice)


    def _go_on_with(self, saved: Optional[SavedGame]) -> None:
        super()._go_on_with(saved)
        if self.game.drawn:
            self._sit()


class DeskScreen(FullScreen):
    """A puzzle with a cursor, which goes onto every place of the edge."""

    def __init__(self, screen: Screen, desk: Desk, game: Game) -> None:
        """That game is the one before."""
        self._desk = desk
        self._before = game
        #: The solution, while it is shown.
        self._solution: Mapping[Place, int] = {}
        super().__init__(screen, desk)
        self._actions.update({key: partial(self._sign, *way) for key, way in keys.SIGNS.items()})
        self._actions.update({'escape': self._quit, keys.FILL: desk.fill})
        #: The act that takes long, as a player is told of it.
        self._work = shared_texts.SEEKING
        #: The puzzle that is to be played then; and which game's draft the player goes on with in lines of text.
        self.choice: Optional[Choice] = None
        self.draft_of = ''

    def _all_actions(self) -> Dict[str, Callable[[], object]]:
        desk, there = self._desk, super()._all_actions()
        own: Dict[str, Callable[[], object]] = {
            'pencil': self._play,
            'undo': partial(desk.along, -1),
            'redo': partial(desk.along, 1),
            'all marks': self._thin,
            'tidy': self._thin,
            'check': self._tell,
            'new': self.choose_board,
            'open': self._open,
            'solve': self._solve,
            'desk': self._quit,
        }
        return {**dict.fromkeys(there, partial(self._say, NOT_HERE)), **{name: there[name] for name in SAME}, **own}

    def _games(self) -> List[Game]:
        return [self._before, self._desk]

    def waiting(self, may_stop: bool) -> bool:
        """An act that takes long is ended by the next key, which does its work then."""
        if not may_stop:
            return super().waiting(False)
        self._dialogues.tell(f'{self._work}. The next key ends that.  {moving(time.monotonic())}')
        return self._screen.has_key()

    def _answer(self, key: str) -> None:
        if key != 'resize':
            self._solution = {}
        super()._answer(key)

    # --- what is shown ---

    @property
    def _board(self) -> Board:
        return self._desk.whole

    def _look(self) -> Look:
        desk, look, columns = self._desk, super()._look(), self._screen.size[1]
        verdict = '' if self._step is not None else desk.told(desk_picture.which(desk.verdict))
        ways = [DIGITS[desk.kind] + way for way in WAYS]
        way = look.way or next((way for way in ways if len(way) < columns - 1), WAYS[-1].strip())
        title = [name(desk.board), 'desk', speech.items(desk.board), f'change {desk.draft.at}/{len(desk.draft.ids) - 1}']
        return look._replace(message=f'{look.message} {verdict}'.strip(), way=way, title=title)

    def _pieces(self) -> List[Piece]:
        pieces, layout, desk = super()._pieces(), self._layout() if self.game.has_game else None, self._desk
        if layout and self._step is None:
            pieces += desk_picture.over(layout, desk.verdict, self._cursor)
            pieces += desk_picture.filled(layout, self._solution, desk.board.numbers, self._cursor)
        return pieces

    def _draw(self) -> None:
        """The board at once; then what there is to say of it, as long as no key waits, and no steps are shown."""
        super()._draw()
        judging, shown = self._desk.judging(), self._desk.verdict
        while self._step is None and not self._screen.has_key() and next(judging, None) is not None:
            if self._desk.verdict is not shown:
                super()._draw()
            shown = self._desk.verdict
        if self.game.message == shared_texts.STOPPED:
            self.game.message = ''

    def _help(self) -> None:
        self._page(f'Keys of the desk, and the rules of {GAMES[self.game.kind]}', [*manual.DESK, *manual.RULES[self.game.kind]])

    def _tell(self) -> None:
        """The verdict as a page, with the names of the items."""
        verdict = self._desk.judge()
        self._page(name(self._desk.board), speech.verdict(self._desk.board, verdict, self._desk.told('below')))

    def _hint(self) -> None:
        walk = self.game.hint_walk()
        if walk:
            self._walk(walk, 0)

    def _solve(self) -> None:
        """The solution, until the next key."""
        self._solution = self._desk.verdict.solution if self._desk.has_one('solve') else {}

    # --- changes ---

    def _number(self, number: int) -> None:
        """A clue or a given. The same number once more takes it out."""
        self._desk.put((self._cursor,), 0 if number == self._desk.number_at(self._cursor) else number)

    def _clear(self) -> None:
        if self._desk.number_at(self._cursor):
            self._desk.put((self._cursor,), 0)
        else:
            self.game.message = shared_texts.NOTHING_TO_CLEAR

    def _sign(self, across: int, down: int, is_greater: bool) -> None:
        """The sign between the square and the next one, where it stands as it is read; it is told where that is. Where it is there already it goes."""
        desk, here, other = self._desk, self._cursor, (self._cursor[0] + across, self._cursor[1] + down)
        pair = (here, other) if is_greater else (other, here)
        is_there = any((sign.greater, sign.less) == pair for sign in desk.board.signs)
        if desk.kind == 'unequal' and other not in desk.board.squares:
            desk.message = NO_NEIGHBOUR.format(side='right of' if across else 'below', square=called(here))
        elif desk.put(pair, 0 if is_there else 1):
            told = speech.item(desk.board, (here, other))
            desk.message = f'{told[0].upper()}{told[1:]}. {desk.message}'.strip()

    def _thin(self) -> None:
        """Takes items out, as it is chosen how."""
        if self._desk.has_one('thin'):
            menu = ThinMenu(self._screen, self._desk)
            if menu.run():
                self._work = shared_texts.THINNING
                self._desk.thin(menu.wish)
                self._work = shared_texts.SEEKING

    def _done_mark(self) -> None:
        """A clue is only chosen by the mouse."""

    def choose_board(self) -> None:
        """Another board, if one is chosen."""
        desk, board = self._desk, self._desk.board
        choice = DeskMenu(self._screen, self._before, Choice(desk.kind, board.size)).run(desk.message)
        if choice is None or not desk.turn_to(choice.game, choice.size):
            return
        self._at_start()
        if choice.grade == BLANK:
            desk.change(f'blank {choice.size}')
        elif choice.grade == PRESENT:
            desk.take_puzzle(self._before.board.session.id)

    def _open(self) -> None:
        """A puzzle that is drawn in a file."""
        file = file_name(self._dialogues.read('open a drawing, the file:', is_file=True) or '')
        if file and (self._desk.open(self._desk.kind, file) or self._desk.take_drawn()):
            self._at_start()

    # --- the end ---

    def _play(self) -> None:
        choice = self._desk.playable()
        if choice and self._desk.may_be_left():
            self.choice, self._is_over = choice, True

    def _lines(self) -> None:
        if self._desk.may_be_left():
            self.draft_of, self._is_over = self._desk.kind, True


class DeskMenu(Menu):
    """Which board the desk has: of which game and size, and with what on it."""

    title = 'Check or set a puzzle'

    def __init__(self, screen: Screen, game: Game, present: Choice) -> None:
        """That game is the one before; at first a blank board like the present one is chosen."""
        self._before = game
        super().__init__(screen, game.state, present._replace(grade=BLANK))

    def _kinds(self) -> List[str]:
        return [BLANK, DRAFT, *([PRESENT] if self._game == self._before.kind else [])]

    def _has_number(self) -> bool:
        return False

    def _choice(self) -> Choice:
        return Choice(self._game, self._size, self._kind)

    def _notes(self) -> List[str]:
        return [NOTES[self._kind], 'Enter begins it.']
