"""Talks to the program `puzzles-json`: a line goes in, an object comes out."""

from __future__ import annotations

import contextlib
import json
import os
import select
import subprocess
from typing import IO, Any, Callable, Iterator, List, Mapping, NoReturn, Optional, Sequence

from playing.board import Reply, reply_of
from playing.files import why

#: How long a line may take before somebody is asked whether to go on waiting, and from then on between two questions.
FIRST_WAIT, NEXT_WAIT = 0.3, 0.1

#: And how long its end, once it says nothing more.
ENDS = 10

#: The name that the program is called by, whatever its file is called: by this one it answers in objects.
NAME = 'puzzles-json'

#: The name by which the line of a fair game is refused where its seed has none.
NO_GAME = 'NoneFound'

#: Called while the program is at work; True where nobody is to wait any more.
Waiting = Callable[[], bool]


class Gone(Exception):
    """The program has ended where it shouldn't have. The text is what it said at its end."""


class Refused(Exception):
    """The program doesn't take the ID, the file or the line by which its game was to begin. The text is the name of the refusal."""


class Stopped(Exception):
    """Nobody wanted to wait for the answer."""


class Program:
    """A run of the program, which lasts until it is stopped."""

    def __init__(self, path: str, game: str, words: Sequence[str] = (), kept: Sequence[int] = (), waiting: Optional[Waiting] = None) -> None:
        """Starts it with these words; it has these descriptors, too. Raises `Refused`, `Gone` or `Stopped` where that comes to nothing."""
        try:
            # In a session of its own no key and no closed window ends it: it ends with its input.
            self._process = subprocess.Popen(
                [NAME, game, *words],
                executable=path,
                stdin=subprocess.PIPE,
                stdout=subprocess.PIPE,
                stderr=subprocess.PIPE,
                pass_fds=tuple(kept),
                start_new_session=True,
            )
        except (OSError, ValueError) as error:
            raise Gone(f'{path}: {why(error)}') from error
        assert self._process.stdin and self._process.stdout
        self._input = self._process.stdin
        self._output = self._process.stdout.fileno()
        self._came = b''
        #: The line by which its game began, where one did it.
        self.line = ''
        #: The reply at the start of its game.
        self.first: Reply = self._first(waiting)

    def __enter__(self) -> Program:
        return self

    def __exit__(self, *_: object) -> None:
        self.stop()

    def ask(self, line: str, waiting: Optional[Waiting] = None) -> Reply:
        """The reply to a line, or to `board` where the line has none. Raises `Gone`, or `Stopped` after which the program is gone too."""
        return reply_of(self.object(line, waiting))

    def object(self, line: str, waiting: Optional[Waiting] = None) -> Mapping[str, Any]:
        """All that the program tells then, as `ask`."""
        line = line.replace('\n', ' ')
        if line.rstrip('\r') in ('', 'quit'):
            line = 'board'
        try:
            self._input.write(line.encode('utf-8', 'surrogateescape') + b'\n')
            self._input.flush()
        except OSError:
            self._end()
        answer = self._line(waiting)
        try:
            told: Mapping[str, Any] = json.loads(answer)
            return told
        except ValueError:
            self.stop()
            raise Gone('its answer is not an object: it is not puzzles-json') from None

    def stop(self) -> None:
        """Ends it. Its game is not saved by that."""
        self._process.kill()
        self._process.wait()
        for stream in (self._process.stdin, self._process.stdout, self._process.stderr):
            if stream:
                with contextlib.suppress(OSError):
                    stream.close()

    def _first(self, waiting: Optional[Waiting]) -> Reply:
        try:
            return self.ask('board', waiting)
        except Gone as gone:
            if self._process.returncode == 3:
                raise Refused(str(gone).partition('refused: ')[2] or str(gone)) from gone
            raise

    def _line(self, waiting: Optional[Waiting]) -> bytes:
        while b'\n' not in self._came:
            try:
                came = next_of(self._output, waiting)
            except BaseException:
                self.stop()
                raise
            if not came:
                self._end()
            self._came += came
        line, _, self._came = self._came.partition(b'\n')
        return line

    def _end(self) -> NoReturn:
        """Raises `Gone` with the first line of what the program has to say."""
        with contextlib.suppress(OSError):
            self._input.close()
        with contextlib.suppress(subprocess.TimeoutExpired):
            self._process.wait(ENDS)
        self._process.kill()
        said = self._process.stderr.read() if self._process.stderr else b''
        status = self._process.wait()
        first = said.decode('utf-8', 'replace').strip().partition('\n')[0]
        raise Gone(first or (f'signal {-status}' if status < 0 else f'status {status}'))


def next_of(descriptor: int, waiting: Optional[Waiting]) -> bytes:
    """The next bytes of a program; nothing at its end. Raises `Stopped` where nobody wants to wait for it."""
    seconds = FIRST_WAIT
    while waiting and not select.select([descriptor], [], [], seconds)[0]:
        if waiting():
            raise Stopped
        seconds = NEXT_WAIT
    return os.read(descriptor, 1 << 16)


@contextlib.contextmanager
def text_file(content: bytes) -> Iterator[IO[bytes]]:
    """A file without a name that has this content, for a program to load. Raises `Gone` where there can't be one."""
    try:
        try:
            file: IO[bytes] = os.fdopen(os.memfd_create('game'), 'w+b')
        except (AttributeError, OSError):
            import tempfile

            file = tempfile.TemporaryFile()
        file.write(content)
        file.flush()
    except OSError as error:
        raise Gone(f'no file can be made for it: {why(error)}') from error
    with file:
        yield file


def started_with(path: str, game: str, content: bytes, waiting: Optional[Waiting] = None) -> Program:
    """The program with the game that is saved in this content."""
    with text_file(content) as file:
        return Program(path, game, ['--load', f'/proc/self/fd/{file.fileno()}'], [file.fileno()], waiting)


def begun_by(path: str, game: str, lines: Sequence[str], waiting: Optional[Waiting] = None) -> Program:
    """The program with the game of a line; of the next one where its seed has none. Raises `Refused`, `Gone` or `Stopped`."""
    program = Program(path, game, waiting=waiting)
    try:
        for line in lines:
            refused = program.ask(line, waiting).refused
            if refused is None:
                program.line = line
                program.first = program.ask('board', waiting)
                return program
            if refused != NO_GAME:
                break
        raise Refused(refused)
    except BaseException:
        program.stop()
        raise


def save_to(path: str, game: str, content: bytes, target: str, waiting: Optional[Waiting] = None) -> str:
    """Has the program save this content's game to a file, as it saves every file. Gives what it complains of, or nothing. Raises `Stopped`."""
    with text_file(content) as file:
        words: List[str] = [NAME, game, '--load', f'/proc/self/fd/{file.fileno()}', '--save', target]
        try:
            process = subprocess.Popen(
                words,
                executable=path,
                stdin=subprocess.DEVNULL,
                stdout=subprocess.DEVNULL,
                stderr=subprocess.PIPE,
                pass_fds=[file.fileno()],
                start_new_session=True,
            )
        except (OSError, ValueError) as error:
            return why(error)
    assert process.stderr
    errors, said = process.stderr.fileno(), b''
    with process:
        try:
            for came in iter(lambda: next_of(errors, waiting), b''):
                said += came
        except BaseException:
            process.kill()
            raise
    complaint = said.decode('utf-8', 'replace').strip().partition('\n')[0]
    return complaint or (f'status {process.returncode}' if process.returncode else '')
