"""Plays on the board, and in its line mode, in a terminal."""

from __future__ import annotations

import contextlib
import os
import re
import shlex
import shutil
from itertools import takewhile
from pathlib import Path
from typing import Dict, Iterator, List, Optional, Sequence, Set, Tuple

from playing.naming import Place
from playing.program import Program
from tests.harness import ID, TOP, Room, Terminal, User, bytecode, run, save_text
from tests.harness.builds import copy
from tests.harness.played import Line

#: Lines and columns.
USUAL = (24, 80)

#: Where something is to be typed in the line mode: at the prompt, or after a question.
PROMPT = re.compile(r'(towers|unequal) [0-9]+/[0-9]+> |.* y/N ')


class BoardFront:
    """The front that is tested, in a room, over a program. Where this has no name it has to find it by itself."""

    def __init__(self, front: str, program: str, room: Room, user: Optional[User] = None) -> None:
        self.path = front
        self.program = program
        self.room = room
        self._user = user

    def of(self, user: Optional[User]) -> BoardFront:
        """A copy of the front in the room, over a copy of the program: for another user, who may not go where it lies, where one is named."""
        for package in ('board', 'playing'):
            shutil.copytree(TOP / package, os.path.join(self.room.path, package), ignore=shutil.ignore_patterns('__pycache__'))
        path = os.path.join(self.room.path, 'board', 'puzzles-play')
        return BoardFront(path, copy(self.room, self.program, 'puzzles-json'), self.room, user)

    def env(self, **more: str) -> Dict[str, str]:
        return {
            'PATH': os.environ.get('PATH', os.defpath),
            'TERM': 'xterm-256color',
            'LC_ALL': 'C.UTF-8',
            'HOME': self.room.path,
            'XDG_STATE_HOME': os.path.join(self.room.path, 'state'),
            **({'PUZZLES_JSON': self.program} if self.program else {}),
            **bytecode(),
            **more,
        }

    @contextlib.contextmanager
    def window(self, words: Sequence[str], size: Tuple[int, int] = USUAL, env: Optional[Dict[str, str]] = None, leave: str = '') -> Iterator[Terminal]:
        """With these words. At the end it is left by these keys, if by any and it wasn't before, and has to end well."""
        with Terminal([self.path, *words], self.env() if env is None else env, size, cwd=self.room.path, user=self._user) as window:
            yield window
            if leave and not window.is_left:
                window.leave(leave)

    @contextlib.contextmanager
    def begun(self, leave: str = '', size: Tuple[int, int] = USUAL, env: Optional[Dict[str, str]] = None) -> Iterator[Terminal]:
        """A game in which the first number was put in."""
        with self.window(['towers', ID], size, env, leave) as window:
            window.look('1', ['1 of 9', 'move 1/1'])
            yield window

    def shows(  # pylint: disable=too-many-arguments
        self, words: Sequence[str], *texts: str, size: Tuple[int, int] = USUAL, env: Optional[Dict[str, str]] = None, leave: str = 'q', status: int = 0
    ) -> None:
        """That is seen at first; then it is left by these keys, or ends by itself, with this status."""
        with self.window(words, size, env) as window:
            window.look('', texts)
            window.leave(leave, status)

    def play(self, lines: Sequence[Line]) -> None:
        """A transcript. Ahead of the words of a run stands what differs of the environment, and the SIZE of the window. The text seen has `¦` between its
        texts: `¬` ahead of one that isn't seen, and behind one its attributes, and those that it hasn't, as in `{1 91 -31}`. Where the program ends its
        status stands in brackets; a run that doesn't end so is ended well by `q`. The folder `.saves` has the saves of the small game by their moves.
        """
        for moves in range(4):
            self.room.lay(f'.saves/{moves}.sav', lambda path, moves=moves: Path(path).write_bytes(save_text(moves)))  # type: ignore[misc]
        with contextlib.ExitStack() as stack:
            for kind, does, seen in lines:
                if kind == '!':
                    assert run(['sh', '-ec', does], self.room).expect().output.decode().splitlines() == seen, does
                    continue
                if kind == '$':
                    stack.close()
                    words = shlex.split(does)
                    how = dict(word.split('=') for word in takewhile(lambda word: '=' in word, words))
                    size = how.pop('SIZE', '24x80').split('x')
                    window = stack.enter_context(self.window([word for word in words if '=' not in word], (int(size[0]), int(size[1])), self.env(**how), 'q'))
                texts = [text.rstrip('}').partition(' {') for line in seen for text in line.split(' ¦ ')]
                status = re.fullmatch(r'\((\d)\)', texts.pop()[0]) if texts and texts[-1][0].startswith('(') else None
                shows, hides = ([text.lstrip('¬') for text, *_ in texts if text.startswith('¬') is is_hidden] for is_hidden in (False, True))
                styles = [(text, [int(word) for word in style.split()]) for text, _, style in texts if style]
                window.look(does if kind == '>' else '', shows, hides, styles)
                if status:
                    window.leave('', int(status[1]))

    def play_in_lines(self, lines: Sequence[Line]) -> None:
        """A transcript through a pipe, as other tools write and read: no prompt, and no line is broken. `…` is any text, and on a line of its own any lines;
        what is said at the beginning, up to the line that tells of help, may be left out.
        """
        begins = [at for at, line in enumerate(lines) if line.kind == '$']
        for first, end in zip(begins, [*begins[1:], len(lines)]):
            words, typed = lines[first].does, '\n'.join(line.does for line in lines[first + 1 : end])
            wanted = ''.join(f'{text}\n' for line in lines[first:end] for text in line.seen)
            pattern = re.sub('^…\n', '(?:.*\n)*?', re.escape(wanted).replace('\\\n', '\n'), flags=re.MULTILINE).replace('…', '.*')
            ended = run([self.path, '--lines', *shlex.split(words)], self.room, input=f'{typed}\n'.encode(), env=self.env())
            said = ended.expect().output.decode()
            if not re.fullmatch('(?:(?:.*\n)*.*help lists the rest\\.\n)?' + pattern, said):
                # It fails here, and pytest shows where both differ.
                assert said == wanted


def solution(program: str, game: str, id: str) -> Tuple[List[int], Set[Place]]:
    """The numbers of a puzzle's solution in reading order, and the squares that are given."""
    with Program(program, game, ['--id', id]) as asked:
        givens = set(asked.first.board.givens) if asked.first.board else set()
        return [int(digit) for digit in asked.ask('solve').lines[0][1:]], givens


def to_and_fro(size: int) -> List[Place]:
    """All squares, row by row, each beside the one before."""
    return [(x, y) for y in range(size) for x in range(size)[:: -1 if y % 2 else 1]]


def whole_game(numbers: Sequence[int], givens: Set[Place]) -> str:
    """The keys that fill a board, with one arrow from each square to the next."""
    size = int(len(numbers) ** 0.5)
    keys, at = '', (0, 0)
    for x, y in to_and_fro(size):
        keys += '<down>' if y > at[1] else '<right>' if x > at[0] else '<left>' if x < at[0] else ''
        keys += str(numbers[y * size + x]) if (x, y) not in givens else ''
        at = x, y
    return keys
