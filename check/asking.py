"""The program's answers on puzzles: whether they can be read, how many solutions they have, and more."""

from __future__ import annotations

import json
from typing import Any, Dict, Iterator, List, Mapping, NamedTuple, Optional, Sequence, Union

from check.blaming import Blame, Blaming
from check.bulk import Bulk
from check.reading import Drawn, Entry, Id, Unread
from check.words import Asked
from playing import texts
from playing.board import GAMES, reply_of
from playing.drawings import Puzzle
from playing.drawings.writing import puzzle_of
from playing.fair import SIZES, letters
from playing.program import Gone, Refused, started_with

#: How an answer begins that is no refusal of a line by which a puzzle begins.
TAKEN = b'{"refused":null,'


#: The measure of spare items if no grade is named.
ANY = ''


class Found(NamedTuple):
    """A puzzle, where it stands, and what the program says of it."""

    file: str
    line: Optional[int]
    game: str
    id: str
    #: `none`, `one` or `several`.
    completable: str
    #: The letter of the least grade by whose steps it follows.
    grade: Optional[str]
    #: The items that could be left out, as the program tells them, by grades: those without which it still follows so, and by `ANY` those without
    #: which it has one solution. Nothing where it wasn't asked.
    spare: Mapping[str, Optional[Mapping[str, List[Any]]]]
    #: Up to two, if they were asked for.
    solutions: Optional[List[List[int]]]
    #: Its clues, signs and givens, if it is drawn again or its items are named.
    puzzle: Optional[Puzzle]
    #: A doubt about parts of its drawing that may have been lost.
    doubt: str
    #: The items to blame if there is none; nothing where that wasn't asked.
    blame: Optional[Blame] = None


class Misread(NamedTuple):
    """A text that can't be read, its place, and why; with a drawing that could be read, of a game, where one is lacking."""

    file: str
    line: Optional[int]
    why: str
    game: str = ''
    form: Sequence[str] = ()


class Begun(NamedTuple):
    """A puzzle of a game, by the lines with which it begins, and what could have been lost of it."""

    game: str
    lines: List[str]
    doubt: str = ''


class Asking:
    """A run of the program for each game, and the questions that are asked of each puzzle."""

    def __init__(self, path: str, asked: Asked) -> None:
        self.path = path
        self._asked = asked
        self._runs: Dict[str, Bulk] = {}
        self._blaming = Blaming(path)

    def _questions(self, game: str) -> List[str]:
        spare = ['spare', *(f'spare {letter}' for letter in letters(game, SIZES[-1]))] if self._asked.has_spare else []
        others = {'solutions': self._asked.has_solutions, 'board': self._asked.has_boards}
        return ['completable', 'grade', *spare, *(name for name, is_asked in others.items() if is_asked)]

    def __enter__(self) -> Asking:
        return self

    def __exit__(self, *_: object) -> None:
        self._blaming.stop()
        for run in self._runs.values():
            run.stop()

    def told(self, entries: Sequence[Entry]) -> Iterator[Union[Found, Misread]]:
        """The answers on each, in their order. Raises `Gone`."""
        begun = self._begun(entries)
        lines: Dict[str, List[str]] = {game: [] for game in GAMES}
        for each in begun:
            if isinstance(each, Begun):
                lines[each.game] += [*each.lines, *self._questions(each.game)]
        answers = {game: self._answers(game, lines[game]) for game in GAMES}
        for entry, each in zip(entries, begun):
            yield each if isinstance(each, Misread) else self._read(entry, each, answers[each.game])

    def _answers(self, game: str, lines: Sequence[str]) -> Iterator[bytes]:
        """They are sent at once, whenever the answers are read."""
        if not lines:
            return iter(())
        run = self._run(game)
        run.send(lines)
        return run.answers(len(lines))

    def _run(self, game: str) -> Bulk:
        if game not in self._runs:
            self._runs[game] = Bulk(self.path, game)
        return self._runs[game]

    def _begun(self, entries: Sequence[Entry]) -> List[Union[Begun, Misread]]:
        """The lines by which each begins, or why none do."""
        ids = iter(self._of_ids([entry.written for entry in entries if isinstance(entry.written, Id)]))
        found: List[Union[Begun, Misread]] = []
        for entry in entries:
            written = entry.written
            if isinstance(written, Unread):
                found.append(Misread(entry.file, entry.line, *written))
            elif isinstance(written, Drawn):
                found.append(Begun(written.puzzle.game, written.puzzle.lines, written.doubt))
            else:
                begun = next(ids) if isinstance(written, Id) else self._of_save(written.content)
                found.append(Misread(entry.file, entry.line, begun) if isinstance(begun, str) else begun)
        return found

    def _of_ids(self, ids: Sequence[Id]) -> List[Union[Begun, str]]:
        """The puzzle of each ID, or why there is none. All are tried before anything is asked of them: after a refused one the game before would answer."""
        read = [([id.game] if id.game else [*GAMES], id.text) for id in ids]
        refused = {game: self._refusals(game, [f'new {id}' for games, id in read if game in games]) for game in GAMES}
        return [_of_id(id, {game: next(refused[game]) for game in games}) for games, id in read]

    def _refusals(self, game: str, lines: Sequence[str]) -> Iterator[Optional[str]]:
        """For each line the name by which it is refused, or nothing."""
        return map(_refusal, self._answers(game, lines))

    def _of_save(self, content: bytes) -> Union[Begun, str]:
        """The puzzle of a saved game, at its start, or why there is none."""
        refusals: List[str] = []
        for game in GAMES:
            try:
                with started_with(self.path, game, content) as program:
                    if program.first.session is None:
                        raise Gone("it doesn't give the game of a save")
                    return Begun(game, [f'new {program.first.session.id}'])
            except Refused as refused:
                refusals.append(str(refused))
        other = next((name for name in refusals if name != 'WrongGame'), 'WrongGame')
        return (texts.of_foreign(content) if other == 'WrongGame' else '') or texts.of_save(other, 'towers')

    def _read(self, entry: Entry, begun: Begun, answers: Iterator[bytes]) -> Union[Found, Misread]:
        """The result of the next answers on a puzzle."""
        refusals = [_refusal(next(answers)) for _ in begun.lines]
        told = {question: _object(next(answers)) for question in self._questions(begun.game)}
        refused = next(filter(None, refusals), None)
        if refused is not None:
            return Misread(entry.file, entry.line, texts.of_id(refused, begun.game))
        first = told['completable']
        if first['refused']:
            raise Gone(f'it refuses a question: {first["refused"]}')
        board = reply_of(told['board']).board if 'board' in told else None
        spare = told['spare'].get('spare') if first['completable'] == 'none' and 'spare' in told else None
        return Found(
            file=entry.file,
            line=entry.line,
            game=begun.game,
            id=first['session']['id'],
            completable=first['completable'],
            grade=told['grade'].get('grade') if first['completable'] == 'one' else None,
            spare={question[len('spare ') :]: told[question].get('spare') for question in told if question.startswith('spare')},
            solutions=told['solutions'].get('solutions') if 'solutions' in told else None,
            puzzle=puzzle_of(board) if board else None,
            doubt=begun.doubt,
            blame=self._blaming.of(begun.game, first['session']['id'], spare) if spare else None,
        )


def _of_id(id: str, refused: Mapping[str, Optional[str]]) -> Union[Begun, str]:
    """The puzzle of an ID, or why there is none; for each game that it may be of there is the name by which it is refused, or nothing."""
    fitting = [game for game, name in refused.items() if name is None]
    if len(fitting) == 1:
        return Begun(fitting[0], [f'new {id}'])
    if fitting:
        return f'it fits both games: write {" or ".join(fitting)} before it'
    # The descriptions of Towers alone have strokes in them.
    meant = next(iter(refused)) if len(refused) == 1 else 'towers' if '/' in id else 'unequal'
    return texts.of_id(str(refused[meant]), meant)


def _refusal(answer: bytes) -> Optional[str]:
    if answer.startswith(TAKEN):
        return None
    name: Optional[str] = _object(answer)['refused']
    return name


def _object(answer: bytes) -> Mapping[str, Any]:
    """Raises `Gone`."""
    try:
        told: Mapping[str, Any] = json.loads(answer)
    except ValueError:
        raise Gone('its answer is not an object: it is not puzzles-json') from None
    if 'lost' in told:
        raise Gone('there is no memory left')
    return told
