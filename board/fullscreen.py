"""The board over a whole terminal: keys in, pictures out."""

from __future__ import annotations

import os
import time
from functools import partial
from typing import Callable, Dict, List, Optional, Sequence

from board import keys, manual, speech
from board.dialogues import Dialogues, moving
from board.file_names import file_name, offered, question
from board.keys import Key
from board.layout import Layout, fit
from board.menu import Menu
from board.picture import Look, Piece, grade, has_room, name, picture, too_small
from board.screen import Screen
from playing import shared_texts
from playing.board import GAMES, Board
from playing.choices import Choice
from playing.drawings.writing import as_text
from playing.game import Game, Start
from playing.games import GRADES
from playing.hint_walk import HintPart, HintWalk, Press
from playing.naming import PRINTED_AS, Place
from playing.state import Home, SavedGame
from playing.steps import Shown
from playing.texts import BY_KEYS, STAYS, last_moves, of_wrong
from playing.typed import is_number


#: The title of the list of games; and where there are none.
OPEN, OPEN_NONE = 'Open a game', 'No other game is kept, and there is no save in this folder.'


class FullScreen:
    """A game with a cursor."""

    def __init__(self, screen: Screen, game: Game) -> None:
        self._screen = screen
        self.game = game
        game.played_by(self, BY_KEYS)
        self._dialogues = Dialogues(screen, self._pieces)
        self._cursor: Place = (0, 0)
        self._is_pencil = False
        self._key = Key('')
        actions = self._all_actions()
        #: The act of each key but those that move or walk.
        self._actions = {key: actions[name] for key, name in {**keys.ACTIONS, **keys.TERMINAL}.items()}
        self._file = ''
        self._shown = Shown()
        #: Which step of a hint is shown, while the arrows walk along them, and what keys do then.
        self._step: Optional[int] = None
        self._way = ''
        #: How many keys waited when it was first offered that a key stops what the program does; nothing while that isn't offered.
        self._before_offer: Optional[int] = None
        self._is_over = False
        #: Whether the player goes on in lines of text.
        self.wants_lines = False

    def _all_actions(self) -> Dict[str, Callable[[], object]]:
        """By the names that `keys` has."""
        play = self.game.play
        return {
            'enter': self._enter,
            'pencil': self._pencil,
            'clear': self._clear,
            'all marks': partial(play, 'move M'),
            'possible': self.game.set_possible_marks,
            'next square': self._next_square,
            'square before': partial(self._next_square, -1),
            'tidy': self.game.toggle_marks,
            'hints': self.game.toggle_hints,
            'undo': partial(play, 'undo'),
            'redo': partial(play, 'redo'),
            'done mark': self._done_mark,
            'restart': self.game.restart,
            'hint': self._hint,
            'why': self._why,
            'keep': partial(self._say, shared_texts.KEEP_AT_END),
            'check': self.game.check,
            'back': self.game.back,
            'solve': self.game.solve,
            'new': self._new,
            'open': self._open,
            'save as': self._save_as,
            'show ID': self._show_id,
            'help': self._help,
            'command': self._command,
            'quit': self._quit,
            'lines': self._lines,
            'suspend': self._screen.suspend,
            'redraw': self._screen.redraw,
            'mouse': self._mouse,
            'resize': lambda: None,
        }

    # --- the game's front end ---

    def confirm(self, question: str) -> bool:
        return self._dialogues.confirm(question)

    def choose(self, title: str, rows: Sequence[str]) -> Optional[int]:
        chosen = self._dialogues.choose(title, rows, may_delete=False)
        return chosen.at if chosen else None

    def waiting(self, may_stop: bool) -> bool:
        """A key that was pressed before it was offered to stop stops nothing, and is heard afterwards."""
        self._dialogues.tell(f'The program is at work{". Any key stops it." if may_stop else " .."}  {moving(time.monotonic())}')
        waiting = self._screen.waiting_keys()
        if not may_stop or self._before_offer is None:
            self._before_offer = waiting if may_stop else None
            return False
        is_stopped = waiting > self._before_offer
        if is_stopped:
            self._screen.drop_last_key()
        return is_stopped

    # --- the run ---

    def begin(self, start: Start) -> str:
        """Goes on with a game, or begins that of an ID or a file, or a new one. Gives the sentence where that is refused."""
        if not self.game.has_game:
            if start.choice:
                self._begin(start.choice)
            else:
                self.game.start(start.game, start.what)
        return '' if self.game.has_game else self.game.message

    def run(self) -> None:
        """Until the player leaves, or goes on in lines of text."""
        self._screen.games = self._games()
        try:
            while not self._is_over:
                self._draw()
                self._key = self._screen.key()
                self._answer(self._key.name)
        finally:
            # A signal or a closed window ends it, too.
            if not self.wants_lines:
                self.game.leave()

    def _games(self) -> List[Game]:
        """The games that are open here."""
        return [self.game]

    def _answer(self, key: str) -> None:
        self._before_offer = None
        if key != 'resize':
            self.game.message = ''
            self.game.keep_again()
        if self._layout() is None and key not in keys.WITHOUT_BOARD:
            return
        if key != 'resize':
            self._shown = Shown()
            self._way = ''
        if self._walk_by(key):
            return
        if key != 'resize':
            self._step = None
        if key in keys.STEPS:
            self._move(*keys.STEPS[key])
        elif is_number(key) and key != '0':
            self._number(int(key))
        elif key in self._actions:
            self._actions[key]()
        else:
            self.game.message = 'That key does nothing. ? shows all keys.'

    def _layout(self) -> Optional[Layout]:
        board = self.game.board
        return fit(board.size, board.session.game == 'towers', *self._screen.size)

    @property
    def _board(self) -> Board:
        """The board, with each clue that the cursor goes onto."""
        return self.game.board

    def _look(self) -> Look:
        game = self.game
        return Look(self._cursor, self._is_pencil, game.message, game.told_trouble, self._screen.has_lines, game.hints, self._shown, game.grade, self._way)

    def _pieces(self) -> List[Piece]:
        if not self.game.has_game:
            return []
        layout = self._layout()
        if layout is None:
            return too_small(self.game.board, *self._screen.size)
        return picture(self._board, layout, self._look())

    def _draw(self) -> None:
        layout, look = self._layout(), self._look()
        if layout and look.message and not look.way and not has_room(look.message, self.game.board, layout, look):
            self._page(name(self.game.board), [look.message])
            self.game.message = ''
        self._screen.paint(self._pieces())

    def _page(self, title: str, lines: List[str], more: Sequence[str] = ()) -> None:
        """A page of text; the key that shows it shows more on a second one, if there is more. The key that closes it does its work on the board, unless it is
        one to close pages with.
        """
        key = self._dialogues.page(title, lines)
        if more and key.name == self._key.name:
            key = self._dialogues.page(title, more)
        if key.name not in keys.CLOSING and (key.name in self._actions or key.name in keys.STEPS or is_number(key.name)):
            self._screen.give_back(key)

    # --- the cursor ---

    def _move(self, across: int, down: int) -> None:
        x, y = self._cursor
        clues = self._board.clues
        size = self._board.size
        # From a clue the next one of its edge; into the grid; or from a square at the edge onto a clue.
        if (y in (-1, size) and across) or (x in (-1, size) and down):
            places = [(x + across * step, y + down * step) for step in range(1, size)]
            self._cursor = next((place for place in places if place in clues), self._cursor)
            return
        place = (x + across, y + down)
        if place in clues or (0 <= place[0] < size and 0 <= place[1] < size):
            self._cursor = place

    def _next_square(self, step: int = 1) -> None:
        """The next empty square in reading order, or the one before; after the last one comes the first."""
        board = self.game.board
        squares = [place for place in board.squares if place not in board.numbers or place == self._cursor]
        if self._cursor not in squares:
            # From a clue.
            self._cursor = next(iter(squares), self._cursor)
        else:
            self._cursor = squares[(squares.index(self._cursor) + step) % len(squares)]

    def _is_on_clue(self) -> bool:
        return self._cursor in self._board.clues

    def _mouse(self) -> None:
        layout = self._layout()
        place = layout.place_at(self._key.line, self._key.column) if layout else None
        board = self._board
        if place is None or (place not in board.clues and place not in board.squares):
            return
        if self._key.button == 3:
            self._is_pencil = True
        if place == self._cursor and self._is_on_clue():
            self._done_mark()
        self._cursor = place

    # --- changes of the board ---

    def _number(self, number: int) -> None:
        x, y = self._cursor
        if self._is_on_clue():
            self.game.message = 'That is a clue. d marks it as done.'
        else:
            self.game.play(f'move {"P" if self._is_pencil else "R"}{x},{y},{number}')

    def _clear(self) -> None:
        board = self.game.board
        if self._is_on_clue():
            self.game.message = 'That is a clue. d marks it as done.'
        elif self._cursor in board.numbers or self._cursor in board.marks:
            self.game.play(f'move R{self._cursor[0]},{self._cursor[1]},0')
        else:
            self.game.message = shared_texts.NOTHING_TO_CLEAR

    def _enter(self) -> None:
        if self._is_on_clue():
            self._done_mark()
        else:
            self._pencil()

    def _pencil(self) -> None:
        self._is_pencil = not self._is_pencil

    def _done_mark(self) -> None:
        if self._is_on_clue():
            self.game.play(f'move D{self._cursor[0]},{self._cursor[1]}')
        else:
            self.game.message = 'd marks a clue at the edge as done: go there first.'

    # --- questions to the program ---

    def _hint(self) -> None:
        """Where to look; pressed again, the steps; pressed again, the number."""
        walk = self.game.hint_walk()
        if walk is None:
            return
        press = walk.press()
        if press is Press.END:
            self._end_hint(walk)
        elif press is Press.STEPS:
            self._walk(walk, 0)
        elif walk.is_refutation and not walk.hint.has_wrong_marks:
            self.game.message = f'{of_wrong(walk.moves, BY_KEYS)} h again: why.'
        else:
            self._show(walk.look())
            self.game.message = ' '.join(filter(None, [self.game.message, self.game.origin_told(walk), f'h again: {walk.what_follows}.']))

    def _show(self, part: HintPart) -> None:
        """Shows a part of a hint, and points at what it speaks of."""
        self._cursor = part.place or self._cursor
        self._shown = part.shown
        self.game.message = part.text

    def _why(self) -> None:
        """All steps of a hint as a page; after that the arrows walk along those on the board."""
        walk = self.game.hint_walk()
        if walk:
            walk.skip_to_steps()
            self._page('. '.join(filter(None, ['Why', self.game.origin_told(walk)])), walk.whole())
            self._walk(walk, 0)

    def _walk(self, walk: HintWalk, at: int) -> None:
        """Shows a step of a hint, or its end."""
        self._step = min(max(0, at), walk.length - 1)
        self._show(walk.part(self._step))
        is_last = self._step == walk.length - 1
        if not walk.is_refutation and is_last:
            keys = 'Enter puts it in' + ('  k keeps what is out' if walk.steps else '')
        elif not walk.is_refutation:
            keys = 'arrows walk  h the number'
        elif walk.moves:
            keys = f'{"Enter" if is_last else "arrows walk  b"} takes {last_moves(walk.moves)} back'
        else:
            keys = 'arrows walk'
        self._way = keys if is_last else f'{self._step + 1} of {walk.count}  {keys}'
        layout, part = self._layout(), walk.part(self._step)
        if layout and not has_room(part.text, self.game.board, layout, self._look()):
            # In a small window the name is left out, and not the end of the sentence.
            self.game.message = part.plain

    def _walk_by(self, key: str) -> bool:
        """Whether a key walks along the steps that are shown, or leaves them."""
        walk = self.game.hint_walk() if self._step is not None else None
        if walk is None or self._step is None or key not in {*keys.ALONG, 'enter', 'escape', keys.KEEP}:
            return False
        if key in keys.ALONG:
            self._walk(walk, self._step + keys.ALONG[key])
        elif key == keys.KEEP:
            self._keep(walk, self._step)
        elif key == 'escape':
            self._step = None
        elif self._step < walk.length - 1:
            self._walk(walk, self._step + 1)
        else:
            self._end_hint(walk)
        return True

    def _keep(self, walk: HintWalk, at: int) -> None:
        """At the last step, leaves the walk with what it ruled out kept in the marks; otherwise the walk goes on."""
        if walk is self.game.told_walk and at == walk.length - 1 and self.game.keep_ruled_out(walk):
            self._step = None
            self.game.message = f'{shared_texts.KEPT} h: the number. {self.game.message}'.strip()
            return
        why = self.game.message or shared_texts.KEEP_AT_END
        self._walk(walk, at)
        self.game.message = why

    def _end_hint(self, walk: HintWalk) -> None:
        self._step = None
        self._cursor = walk.place or self._cursor
        self.game.end_hint()

    def _command(self) -> None:
        text = self._dialogues.read(':')
        if not text:
            return
        own = self._own_commands().get(text)
        if own:
            own()
        elif text.startswith('fair '):
            if self.game.begin_fair(self.game.kind, [text]):
                self._at_start()
        elif text.startswith('new '):
            self._begin(Choice(self.game.kind, self.game.board.size, id=text[4:].strip()))
        else:
            reply = self.game.play(text)
            lines = reply.lines if reply else []
            if len(lines) > 1 or (lines and len(lines[0]) > 60):
                self._page(text, lines)
            elif lines and lines != ['ok']:
                self.game.message = lines[0]

    def _own_commands(self) -> Dict[str, Callable[[], object]]:
        """Commands that the board answers by what its keys do, or in words."""
        board = self.game.board
        return {
            **dict.fromkeys(('q', 'quit', 'exit'), self._quit),
            **dict.fromkeys(('help', '?'), self._help),
            'hint': self._hint,
            'completable': self.game.check,
            'board': partial(self._page, name(board), speech.rows(board)),
            'grade': partial(self._say, speech.grade(board, self.game.grade)),
        }

    def _say(self, text: str) -> None:
        self.game.message = text

    # --- games ---

    def _new(self) -> None:
        """The menu, until a game begins or it is left: what is refused is said there."""
        board = self.game.board
        name = grade(board) or GRADES[self.game.kind].get(self.game.grade, '')
        menu = Menu(self._screen, self.game.state, Choice(self.game.kind, board.size, name))
        choice = menu.run()
        while choice and not self._begin(choice) and self.game.message != STAYS:
            choice = menu.run(self.game.message)
            self.game.message = ''

    def _begin(self, choice: Choice) -> bool:
        """Whether it has begun."""
        has_begun = self.game.begin_new(choice)
        if has_begun:
            self._at_start()
            if self.game.told_number:
                self.game.message = f'{self.game.message} {self.game.told_number} That number is always this game.'.strip()
        return has_begun

    def _at_start(self) -> None:
        self._cursor = (0, 0)
        self._is_pencil = False
        self._file = ''

    def _open(self) -> None:
        """Lists what can be continued until one is chosen; the list is shown again where one was deleted."""
        at = 0
        while True:
            saved = self.game.saved_games(os.path.dirname(self._file))
            # A file that is to be named stands before those of the folder.
            own = sum(game.home is not Home.FOLDER for game in saved)
            rows = self.game.told_of(saved)
            chosen = self._dialogues.choose(self.game.message or (OPEN if saved else OPEN_NONE), [*rows[:own], 'a file ..', *rows[own:]], min(at, len(saved)))
            self.game.message = ''
            if chosen is None:
                self.game.message = self.game.state.old_trouble()
                return
            at = chosen.at
            game = None if at == own else saved[at if at < own else at - 1]
            if not chosen.is_deleted:
                self._go_on_with(game)
                return
            if game:
                self.game.delete(game)

    def _go_on_with(self, saved: Optional[SavedGame]) -> None:
        """Goes on with a game of the list, or with a file that is to be named."""
        if saved is None:
            file = file_name(self._dialogues.read('open the file:', is_file=True) or '')
            done = bool(file) and self.game.open(self.game.kind, file)
        else:
            file = saved.path if saved.home is Home.FOLDER else ''
            done = self.game.go_on_with(saved)
        if done:
            self._at_start()
            self._file = file

    def _save_as(self) -> None:
        board = self.game.board
        name_offered = self._file or offered(self.game.kind, board.size, grade(board))
        file = file_name(self._dialogues.read('save as:', name_offered, is_file=True) or '')
        if not file:
            return
        asked = '' if file == self._file else question(file)
        if asked and not self.confirm(asked):
            self.game.message = 'Nothing was saved.'
            return
        if self.game.save_as(file):
            self._file = file

    def _show_id(self) -> None:
        board = self.game.board
        lines = [board.session.id, '', 'To play it again: n, by an ID; or on the command line', '', f"puzzles-play {self.game.kind} '{board.session.id}'"]
        chosen = self.game.chosen
        if chosen:
            lines += ['', chosen.told, '', f'puzzles-play {chosen.game} {chosen.words}']
        lines += ['', 'i again: the puzzle as text, as the usual program copies it']
        self._page(f'The ID of this puzzle, {name(board)} {grade(board)}', lines, as_text(board))

    def _help(self) -> None:
        kind = self.game.kind
        self._page(f'Keys, and the rules of {GAMES[kind]} ({PRINTED_AS[kind]})', [*manual.KEYS, *manual.RULES[kind], *manual.LOOKS[kind], *manual.WORDS])

    # --- the screen, and the end ---

    def _lines(self) -> None:
        self.wants_lines = self._is_over = True

    def _quit(self) -> None:
        self._is_over = self.game.may_be_left()
