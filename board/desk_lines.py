"""The setter's desk in the line mode: items by words, and the verdict in sentences."""

from __future__ import annotations

from typing import Callable, List, Optional

from board import manual, speech
from board.file_names import file_name
from board.lines import OFF_GRID, LineMode, say
from board.prompt import Asking
from board.typed_moves import OutOfGrid, typed_item
from board.typed_wish import wish_in
from playing import shared_texts
from playing.choices import Choice
from playing.desk import Desk
from playing.game import Game
from playing.games import SIZES
from playing.naming import game_called
from playing.verdict import Item

NOT_HERE = "The desk has no such line. 'help' lists those that it has, and 'back' goes back to the game."
NO_FILE = "'load FILE' reads a puzzle that is drawn in a file."
NO_BOARD = "'desk unequal' turns to the draft of a game, 'desk unequal 5' and 'blank 5' to a blank board of a size from 3 to 9."

NO_WISH = "'thin hard clues first half turn': a grade or 'any', numbers or clues first, and half turn, quarter turn or mirrored."

#: The words that lead from a game to the desk; on the desk back, or to another board.
ENTERING = ('desk', 'set')

#: Commands of the line mode that are the same here.
SAME = ('rules', 'board', 'row', 'column', 'clues', 'show', 'text', 'save', 'why')


class GameLines(LineMode):
    """The line mode of a game, whose place the desk may take."""

    def __init__(self, game: Game, has_board: Callable[[], bool]) -> None:
        super().__init__(game, has_board)
        self._commands.update(dict.fromkeys(ENTERING, self._sit))

    def _begun(self) -> None:
        if self._game.at_desk or self._game.drawn:
            self._sit(self._game.at_desk)
        else:
            super()._begun()

    def _load(self, text: str) -> None:
        super()._load(text)
        if self._game.drawn:
            self._sit('')

    def _sit(self, text: str) -> None:
        """The desk, until it is left, or its puzzle is to be played."""
        game, desk = self._game, Desk(self._game.path)
        front = DeskLines(desk, game, self._has_board, self._prompt)
        front.run_with(text)
        game.at_desk = front.draft_of
        self.wants_board = self._is_over = bool(front.draft_of)
        if front.choice:
            self._begin(front.choice)
        elif not self._is_over:
            self._show()


class DeskLines(LineMode):
    """A puzzle at the prompt."""

    def __init__(self, desk: Desk, game: Game, has_board: Callable[[], bool], prompt: Asking) -> None:
        """That game is the one before."""
        super().__init__(desk, has_board, prompt)
        self._desk = desk
        self._before = game
        #: The puzzle that is to be played then; and which game's draft the player goes on with on the board.
        self.choice: Optional[Choice] = None
        self.draft_of = ''
        self._commands = {
            **{name: self._commands[name] for name in SAME},
            **dict.fromkeys(('back', 'quit'), self._quit),
            **dict.fromkeys(ENTERING, lambda text: self._turn_to(text) if text else self._quit('')),
            **dict.fromkeys(('thin', 'tidy'), self._thin),
            'fill': lambda _: self._after(desk.fill()),
            'help': lambda _: say(*manual.DESK_LINES),
            'hint': self._why,
            'check': lambda _: say(*speech.verdict(desk.board, desk.judge(), desk.told('below'))),
            'undo': lambda _: self._after(desk.along(-1)),
            'redo': lambda _: self._after(desk.along(1)),
            'blank': lambda text: self._turn_to(text or str(desk.board.size)),
            'game': self._take_game,
            **dict.fromkeys(('load', 'open'), self._load),
            'play': self._play_it,
        }

    def _games(self) -> List[Game]:
        return [self._before, self._desk]

    def run_with(self, text: str) -> None:
        """Until the desk is left; at first with what the words say."""
        try:
            self._desk.drawn, self._before.drawn = self._before.drawn, None
            if self._desk.turn_to(self._before.kind, self._before.board.size):
                if self._desk.take_drawn():
                    self._begun()
                elif text:
                    self._turn_to(text)
                else:
                    self._begun()
                while not self._is_over:
                    self._read()
            else:
                self._say_message()
        finally:
            self._desk.leave()

    def _begun(self) -> None:
        self._say_message()
        self._show()
        self._after(True)

    def _answer(self, line: str) -> None:
        size = self._desk.board.size
        try:
            typed = typed_item(line, size)
        except OutOfGrid:
            say(OFF_GRID.format(size=size))
            return
        if typed:
            self._put(*typed)
        elif line == 'p':
            self._play_it('')
        else:
            super()._answer(line)

    def _put(self, item: Item, number: int) -> None:
        before = speech.faults(self._desk.board)
        if self._desk.put(item, number):
            faults = speech.faults(self._desk.board)
            say(f'{speech.item(self._desk.board, item)}{self._ruling()}', *([faults] if faults and faults != before else []))

    def _after(self, is_changed: bool) -> None:
        """The words for the puzzle that is there now."""
        if is_changed:
            say(f'{speech.items(self._desk.board)}{self._ruling()}')

    def _ruling(self) -> str:
        """The verdict in a word; how it comes about is said when it is asked for. An empty board says how it is filled."""
        kind = self._desk.ruled().kind
        return f'. {self._desk.told("")}' if kind == 'blank' else f'; {shared_texts.SOLUTIONS.get(kind, "unknown").lower()}'

    def _thin(self, text: str) -> None:
        if self._desk.has_one('thin'):
            wish = wish_in(text, self._desk.kind, self._desk.verdict.letter)
            if wish:
                self._after(self._desk.thin(wish))
            else:
                say(NO_WISH)

    def _play(self, line: str) -> None:
        if line == 'id':
            super()._play(line)
        else:
            say(NOT_HERE)

    def _turn_to(self, text: str) -> None:
        """The draft of a game, or a blank board of a size."""
        desk, words = self._desk, text.lower().split()
        games, sizes = [*filter(None, map(game_called, words))], [word for word in words if not game_called(word)]
        if len(games) > 1 or len(sizes) > 1 or not set(sizes) <= set(map(str, SIZES)):
            say(NO_BOARD)
        elif desk.turn_to((games or [desk.kind])[0], int((sizes or ['5'])[0])):
            if sizes:
                desk.change(f'blank {sizes[0]}')
            self._begun()

    def _load(self, text: str) -> None:
        file = file_name(text)
        if not file:
            say(NO_FILE)
        elif self._desk.open(self._desk.kind, file) or self._desk.take_drawn():
            self._begun()

    def _take_game(self, _: str) -> None:
        board = self._before.board
        if self._desk.turn_to(self._before.kind, board.size) and self._desk.take_puzzle(board.session.id):
            self._begun()

    def _play_it(self, _: str) -> None:
        choice = self._desk.playable()
        if choice and self._desk.may_be_left():
            self.choice, self._is_over = choice, True

    def _to_board(self) -> None:
        if self._desk.may_be_left():
            super()._to_board()
            self.draft_of = self._desk.kind if self.wants_board else ''

    def _position(self) -> str:
        return f'desk {self._desk.draft.at}/{len(self._desk.draft.ids) - 1}'
