"""The line mode: a prompt, and one sentence a move. For those who can't see a board, and for terminals that can't show one."""

from __future__ import annotations

import shutil
import sys
import textwrap
from typing import Callable, Dict, Optional, Sequence

from board import manual, speech
from board.file_names import file_name, question
from board.prompt import Asking, asking, tried_again
from board.typed_moves import Kind, OutOfGrid, TypedMove, typed_move
from playing import shared_texts
from playing.board import Board
from playing.choices import FIRST_GRADE, Choice, Unknown, choice_of, remembered
from playing.drawings.writing import as_text
from playing.game import Game, Start
from playing.games import GRADES
from playing.hint_walk import HintWalk, Press
from playing.naming import game_called
from playing.printable import printable
from playing.texts import BY_LINES, of_solved, of_wrong
from playing.typed import is_number

#: Letters, which are the keys of the board; and words that mean the same as others.
SHORT: Dict[str, str] = {
    '?': 'help',
    'h': 'hint',
    'H': 'why',
    'q': 'quit',
    'exit': 'quit',
    'u': 'undo',
    'r': 'redo',
    'R': 'restart',
    'm': 'move M',
    'P': 'possible',
    'M': 'tidy',
    'k': 'keep',
    'K': 'remember',
    'c': 'check',
    'b': 'back',
    'S': 'solve',
    'n': 'new',
    'o': 'open',
    'w': 'save',
    'i': 'id',
    'E': 'desk',
    's': 'show',
}

#: Keys of the board that need more than a letter here, or another key.
OTHERS: Dict[str, str] = {
    'p': "'p r1c2 3' sets a pencil mark, or takes it away.",
    'd': "'d above 1' marks a clue as done.",
    'Z': 'Ctrl-Z goes to the shell.',
}

NO_BOARD = 'The board needs a terminal with a screen.'
CHOOSE = 'Type the number of one, or an empty line for none.'
OFF_GRID = 'Rows and columns count from 1 to {size}.'


class LineMode:
    """A game at a prompt."""

    def __init__(self, game: Game, has_board: Callable[[], bool], prompt: Optional[Asking] = None) -> None:
        """Whether the board can be shown is asked when the player wants it. The prompt may be another one's."""
        self._prompt: Asking = prompt or asking()
        self._game = game
        self._has_board = has_board
        game.played_by(self, BY_LINES)
        self._is_told = False
        self._is_over = False
        #: Whether the player goes on with the board.
        self.wants_board = False
        #: Whether it was told that the program is at work, since something was typed.
        self._has_told = False
        self._trouble = ''
        self._commands: Dict[str, Callable[[str], None]] = {
            'help': self._help,
            'rules': self._rules,
            'new': self._new,
            'fair': self._fair,
            'save': self._save,
            'load': self._load,
            'open': self._open,
            'delete': self._delete,
            'board': lambda _: say(*speech.rows(self._game.board)),
            'row': lambda text: self._line(text, 'row', speech.row),
            'column': lambda text: self._line(text, 'column', speech.column),
            'clues': lambda _: say(*speech.clues(self._game.board)),
            'marks': lambda _: say(*speech.marks(self._game.board)),
            'done': lambda _: say(*speech.done(self._game.board)),
            'possible': self._possible,
            'hint': self._hint,
            'why': self._why,
            'keep': self._keep,
            'check': lambda _: self._game.check(),
            'completable': lambda _: self._game.check(),
            'solve': self._solve,
            'tidy': lambda _: self._game.toggle_marks(),
            'remember': lambda _: self._game.toggle_hints(),
            'back': self._back,
            'show': lambda _: self._show(),
            'status': lambda _: say(f'{self._game.board.session.status} {self._position()}'),
            'text': lambda _: say_whole(*as_text(self._game.board)),
            'grade': lambda _: say(speech.grade(self._game.board, self._game.grade)),
            'quit': self._quit,
        }

    # --- the game's front end ---

    def confirm(self, question: str) -> bool:
        answer = self._typed(f'{question} y/N ')
        return answer in ('y', 'Y', 'yes')

    def choose(self, title: str, rows: Sequence[str]) -> Optional[int]:
        say(title, *(f'{at}  {row}' for at, row in enumerate(rows)), CHOOSE)
        answer = self._typed('number> ') or ''
        return int(answer) if is_number(answer) and int(answer) < len(rows) else None

    def waiting(self, may_stop: bool) -> bool:
        if self._prompt.is_typed and not self._has_told:
            say('The program is at work: Ctrl-C stops it.')
            self._has_told = True
        return self._prompt.stopped()

    # --- the run ---

    def run(self, start: Start) -> Optional[int]:
        """Until the player leaves; the status is 3 where the ID or the file is refused. Nothing where the player goes on with the board."""
        try:
            if not self._begin_with(start):
                say(self._game.message)
                return 3
            say(f'Type a square and a number, like r1c2 {self._game.board.size}; hint helps, help lists the rest.')
            while not self._is_over:
                self._read()
        finally:
            # A signal or a closed window ends it, too.
            self._prompt.leave()
            if not self.wants_board:
                self._game.leave()
        return None if self.wants_board else 0

    def _begin_with(self, start: Start) -> bool:
        """Whether there is a game: the one of another front, or one that begins or goes on."""
        if self._game.has_game:
            self._begun()
        elif start.choice:
            self._begin(start.choice)
        elif self._game.start(start.game, start.what):
            self._begun()
        return self._game.has_game

    def _typed(self, prompt: str) -> Optional[str]:
        """A line; nothing at the end of the input."""
        with tried_again(self._games()):
            return self._prompt.read(prompt)

    def _games(self) -> Sequence[Game]:
        """The games that are open here."""
        return [self._game]

    def _read(self) -> None:
        """Reads a line, and answers it."""
        line = self._typed(f'{self._game.kind} {self._position()}> ')
        self._has_told = False
        self._game.keep_again()
        if line is None:
            self._quit('')
        elif line:
            self._answer(line)
            self._say_message()
        else:
            self._empty()

    def _empty(self) -> None:
        """Answers an empty line."""

    def _answer(self, line: str) -> None:
        size = self._game.board.size
        try:
            move = typed_move(line, size)
        except OutOfGrid:
            say(OFF_GRID.format(size=size))
            return
        if move:
            self._move(move)
        elif line == 'T':
            self._to_board()
        elif line in OTHERS:
            say(OTHERS[line])
        else:
            self._command(line)

    def _command(self, line: str) -> None:
        """A command by its letter or its word."""
        word, blank, rest = line.partition(' ')
        line = SHORT.get(word, SHORT.get(word.lower(), word)) + blank + rest
        word, _, rest = line.partition(' ')
        if word.lower() in self._commands and not (word == 'new' and not rest.strip() and line != 'new'):
            self._commands[word.lower()](rest.strip())
        else:
            self._play(line.lower() if ' ' not in line else line)

    def _to_board(self) -> None:
        if self._has_board():
            self.wants_board = self._is_over = True
        else:
            say(NO_BOARD)

    def _move(self, move: TypedMove) -> None:
        board = self._game.board
        if move.kind is Kind.LOOK:
            say(speech.square(board, move.place) if move.place in board.squares else speech.clue(board, move.place))
        else:
            self._play(move.line)

    def _play(self, line: str) -> None:
        """Has the program do that, and says what came of it."""
        before = self._game.board
        reply = self._game.play(line)
        if reply is None:
            return
        after = self._game.board
        if line == 'restart':
            self._is_told = False
        if reply.lines == ['ok']:
            say(speech.change(before, after))
        else:
            say(*reply.lines)
        self._say_state(after, speech.faults(before))

    def _say_state(self, board: Board, told: str = '') -> None:
        """The contradictions that aren't told yet, and whether the board is full, and solved."""
        faults = speech.faults(board)
        if faults and faults != told:
            say(faults)
        if board.is_full and faults and faults != told:
            say('Full, but not right yet.')
        if board.is_solved and not self._is_told:
            self._is_told = True
            say(of_solved(board.session.status, self._game.hints))

    def _say_message(self) -> None:
        say(*filter(None, [self._game.message]))
        self._game.message = ''
        if self._game.trouble and self._game.trouble != self._trouble:
            say(self._game.told_trouble)
        self._trouble = self._game.trouble

    def _position(self) -> str:
        session = self._game.board.session
        return f'{session.position}/{session.states}'

    # --- what is shown ---

    def _begun(self) -> None:
        self._say_message()
        self._is_told = self._game.board.is_solved
        self._show()
        board = self._game.board
        if board.marks:
            say('Pencil marks:', *speech.marks(board))

    def _show(self) -> None:
        """The program's picture, with the numbers of the columns and rows."""
        reply = self._game.ask('show')
        size, is_towers = self._game.board.size, self._game.kind == 'towers'
        border, step = (1, 1) if is_towers else (0, 2)
        say(' ' * (1 + 2 * border) + ''.join(f' {x + 1}' for x in range(size)))
        for at, line in enumerate(reply.lines if reply else []):
            y = at - border
            say(f'{y // step + 1 if 0 <= y < size * step and y % step == 0 else " "} {line}')

    def _line(self, text: str, kind: str, sentence: Callable[[Board, int], str]) -> None:
        size = self._game.board.size
        if is_number(text) and 1 <= int(text) <= size:
            say(sentence(self._game.board, int(text) - 1))
        else:
            say(f"'{kind} 1' describes a {kind}, by a number from 1 to {size}.")

    def _help(self, _: str) -> None:
        say(*manual.LINES)

    def _rules(self, _: str) -> None:
        say(*manual.RULES[self._game.kind])

    def _hint(self, _: str) -> None:
        walk = self._game.hint_walk()
        if walk is None:
            return
        press = walk.press()
        if press is Press.LOOK and walk.hint.has_wrong_marks:
            say(f"{walk.look().text} 'hint' again says {walk.what_follows}.")
        elif press is Press.LOOK and walk.is_refutation:
            say(f"{of_wrong(walk.moves, BY_LINES)} 'hint' again says why.")
        elif press is Press.LOOK:
            say(' '.join(filter(None, [walk.look().text, self._game.origin_told(walk), f"'hint' again gives {walk.what_follows}."])))
        elif press is Press.STEPS:
            self._steps(walk)
        else:
            self._end_hint(walk)

    def _steps(self, walk: HintWalk) -> None:
        """All steps, and the last sentence where that says no number."""
        sentences = walk.whole()
        say(*(sentences if walk.is_refutation else sentences[:-1]))
        ways = "'hint' again takes the moves back. " if walk.is_refutation else "'hint' again puts the number in. 'keep' keeps what they rule out. "
        say(f"{'' if walk.hint.has_wrong_marks else ways}'why 1' lists the numbers before step 1.")

    def _end_hint(self, walk: HintWalk) -> None:
        before = self._game.board
        if not walk.is_refutation:
            say(walk.part(walk.length - 1).text)
        self._game.end_hint()
        after = self._game.board
        if after is not before:
            say(speech.change(before, after))
            self._say_state(after, speech.faults(before))

    def _why(self, text: str) -> None:
        """All sentences of the hint; or those of one step, with what is left before it in the squares that it speaks of."""
        walk = self._game.hint_walk()
        if walk is None:
            return
        walk.skip_to_steps()
        if not text:
            say(*filter(None, [self._game.origin_told(walk)]), *walk.whole())
        elif is_number(text) and 1 <= int(text) <= walk.length:
            self._one_step(walk, int(text) - 1)
        else:
            say(f"'why 1' gives a step, by a number from 1 to {walk.length}.")

    def _one_step(self, walk: HintWalk, at: int) -> None:
        board, part = self._game.board, walk.part(at)
        if part.shown.left is not None:
            squares = [place for place in board.squares if place in part.shown.left and (place in part.shown.rests_on or place in part.shown.struck)]
            say(f'Left before it: {speech.left(part.shown.left, squares)}.')
        say(part.text)

    def _keep(self, _: str) -> None:
        before, walk = self._game.board, self._game.told_walk
        if walk is None:
            say(shared_texts.KEEP_AT_END)
        elif self._game.keep_ruled_out(walk):
            say(speech.change(before, self._game.board))

    def _possible(self, _: str) -> None:
        before = self._game.board
        if self._game.set_possible_marks():
            say(speech.change(before, self._game.board))

    def _solve(self, _: str) -> None:
        before = self._game.board
        self._game.solve()
        if self._game.board.session.position > before.session.position:
            self._show()
            self._say_state(self._game.board)

    def _back(self, _: str) -> None:
        before = self._game.board
        self._game.back()
        if self._game.board is not before:
            self._show()

    # --- games ---

    def _new(self, text: str) -> None:
        """A game, a size, a grade and a number in any order, or an ID."""
        board = self._game.board
        # `hard 9, number 7` as it is told; the commas of an ID stay.
        words = (text if set(text) & set(':!#') else text.replace(',', ' ')).split()
        game = next(filter(None, map(game_called, words)), self._game.kind)
        words = [word for word in words if not game_called(word)]
        present = Choice(game, board.size, GRADES[game].get(board.session.letter, FIRST_GRADE))
        try:
            if all(word.isdecimal() or word.isalpha() for word in words):
                choice = choice_of(words, remembered(self._game.state, game) or present)
            else:
                choice = present._replace(id=words[-1])
        except Unknown as unknown:
            say(str(unknown))
            return
        self._begin(choice)

    def _begin(self, choice: Choice) -> None:
        if self._game.begin_new(choice):
            self._begun()
            chosen = self._game.chosen
            if chosen:
                say(chosen.told, 'To play it again:')
                say_whole(f'new {chosen.words}')
            elif not choice.id:
                say('To play it again:')
                say_whole(f'new {self._game.board.session.id}')

    def _fair(self, text: str) -> None:
        """A game by the words of the program's own line."""
        if self._game.begin_fair(self._game.kind, [f'fair {text}']):
            self._begun()

    def _save(self, text: str) -> None:
        file = file_name(text)
        if not file:
            say("'save FILE' needs the name of a file.")
            return
        asked = question(file)
        if asked and not self.confirm(asked):
            say('Nothing was saved.')
        else:
            self._game.save_as(file)

    def _load(self, text: str) -> None:
        file = file_name(text)
        if not file:
            say("'load FILE' needs the name of a file.")
        elif self._game.open(self._game.kind, file):
            self._begun()

    def _open(self, text: str) -> None:
        saved = self._game.saved_games('')
        if is_number(text) and int(text) < len(saved):
            if self._game.go_on_with(saved[int(text)]):
                self._begun()
            return
        for at, line in enumerate(self._game.told_of(saved)):
            say(f'{at}  {line}')
        trouble = self._game.state.old_trouble()
        say("'open 0' opens number 0, 'delete 0' deletes it." if saved else trouble or 'No game was put away yet.')

    def _delete(self, text: str) -> None:
        saved = self._game.saved_games('')
        if is_number(text) and int(text) < len(saved):
            self._game.delete(saved[int(text)])
        else:
            say("'delete 0' deletes number 0 of what 'open' lists.")

    def _quit(self, _: str) -> None:
        self._is_over = not sys.stdin.isatty() or self._game.may_be_left()


def say_whole(*lines: str) -> None:
    """Prints lines as they are, however long, so that they can be copied."""
    print(*map(printable, lines), sep='\n', flush=True)


def say(*lines: str) -> None:
    """Prints lines; one that is too long for the terminal is broken between two words."""
    columns = shutil.get_terminal_size().columns if sys.stdout.isatty() else 0
    for line in map(printable, lines):
        parts = textwrap.wrap(line, max(columns - 1, 20), subsequent_indent='  ', break_long_words=False, break_on_hyphens=False)
        print('\n'.join(parts) if 0 < columns <= len(line) else line, flush=True)
