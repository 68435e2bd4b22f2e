"""Which new game: its size and grade, and its number or an ID, as a player chooses it in a menu or by words."""

from __future__ import annotations

import random
from typing import Dict, Iterator, List, NamedTuple, Optional, Sequence, Tuple

from playing import fair, games
from playing.board import GAMES, Session
from playing.games import GRADES, SIZES
from playing.naming import listed
from playing.program import Program
from playing.state import State
from playing.typed import is_number

#: Before the number of a fair game; for the number that the date is; and for one by chance, as when nothing is said.
NUMBER, TODAY, SEEDED = 'number', 'today', 'seeded'

#: The size and the grade where nothing was chosen yet.
FIRST_SIZE, FIRST_GRADE = 5, 'easy'

#: So many numbers by chance are tried: of the first 3,000 of tricky Unequal of size 4 one, 1185, has no game.
TRIES = 20

#: After so many numbers in a row whose games are there already no further ones are looked for.
ALIKE = 1000

WRONG_SIZE = 'A size is one digit from 3 to 9.'
WRONG_NUMBER = f"A number goes from 0 to {fair.SEEDS - 1}: 'number 20261126'."


class Unknown(Exception):
    """There is no such game. The text says what there is."""


class Choice(NamedTuple):
    """A game that is to begin."""

    game: str
    size: int
    #: The name of a grade; nothing where an ID says all, or any grade will do.
    grade: str = ''
    #: The seed of a fair game; nothing where chance is to say.
    number: Optional[int] = None
    id: str = ''
    #: Whether the next game is to be like this.
    is_kept: bool = True

    @property
    def letter(self) -> str:
        """The letter of the grade, or of the first one of which there are games."""
        there = games.letters(self.game, self.size)
        return next((letter for letter in there if GRADES[self.game][letter] == self.grade), ''.join(there[:1]))

    @property
    def is_fair(self) -> bool:
        return not self.id and self.letter in fair.letters(self.game, self.size)

    @property
    def lines(self) -> List[str]:
        """The lines that may begin such a fair game: one of the program, or some by chance, of which a later one is for a number that has no game."""
        numbers = [fair.by_chance() for _ in range(TRIES)] if self.number is None else [self.number]
        return [fair.line(self.size, self.letter, number) for number in numbers]

    @property
    def words(self) -> str:
        """The words that choose a numbered game, after the name of the game."""
        return f'{self.size} {self.grade} {NUMBER} {self.number}'

    @property
    def told(self) -> str:
        """A numbered game, as `Hard 9, number 20261126.`"""
        return f'{self.grade.title()} {self.size}, {NUMBER} {self.number}.'


def without_number(words: Sequence[str]) -> Tuple[List[str], Optional[str]]:
    """The words but those that name a number, and that number where there are such."""
    at = next((at for at, word in enumerate(words) if word.lower() == NUMBER), len(words))
    return [*words[:at], *words[at + 2 :]], ' '.join(words[at + 1 : at + 2]) if at < len(words) else None


def unread(words: Sequence[str]) -> Optional[str]:
    """The first word that is no size, no grade of either game, and no number."""
    kinds = {TODAY, SEEDED, *(grade for grades in GRADES.values() for grade in grades.values())}
    return next((word for word in without_number(words)[0] if not is_number(word) and word.lower() not in kinds), None)


def are_words(words: Sequence[str]) -> bool:
    """Whether these choose a new game."""
    return bool(words) and unread(words) is None


def choice_of(words: Sequence[str], last: Choice) -> Choice:
    """The choice that words name: a size, a grade and a number in any order; the rest is as it was last. Raises `Unknown`."""
    others, text = without_number(words)
    grades = list(GRADES[last.game].values())
    size, grade, is_today = '', '', False
    for word in (word.lower() for word in others):
        if word.isdecimal():
            size = word if is_number(word) else '0'
        elif word in grades:
            grade = word
        elif word == TODAY:
            is_today = True
        elif word != SEEDED:
            raise Unknown(f"{GAMES[last.game]} has no grade '{word}': {listed(grades, 'or')}.")
    choice = Choice(last.game, int(size or last.size), grade or last.grade, fair.today() if is_today else number_of(text), is_kept=not is_today)
    return checked(choice, is_said=bool(grade))


def number_of(text: Optional[str]) -> Optional[int]:
    """The number that was typed, where one was. Raises `Unknown`."""
    number = fair.seed_of(text or '')
    if text is not None and number is None:
        raise Unknown(WRONG_NUMBER)
    return number


def checked(choice: Choice, is_said: bool) -> Choice:
    """The choice, where there are such games; where its grade wasn't said but is the last one, and has no numbers, it is the first that has. Raises `Unknown`."""
    if choice.size not in SIZES:
        raise Unknown(WRONG_SIZE)
    names = GRADES[choice.game]
    there = [names[letter] for letter in games.letters(choice.game, choice.size)]
    if is_said and choice.grade not in there:
        raise Unknown(f'Of size {choice.size} there are puzzles of the grades {listed(there)}.')
    if choice.number is None or choice.is_fair:
        return choice
    made = [names[letter] for letter in fair.letters(choice.game, choice.size)]
    if is_said:
        raise Unknown(f'Of size {choice.size} the grades {listed(made)} have numbers.')
    return choice._replace(grade=FIRST_GRADE if FIRST_GRADE in made else made[0])


def remembered(state: State, game: str) -> Optional[Choice]:
    """The last choice of a game."""
    size, _, grade = state.chosen(game).partition(' ')
    is_known = is_number(size) and int(size) in SIZES and grade in GRADES[game].values()
    return Choice(game, int(size), grade) if is_known else None


def remember(state: State, choice: Choice) -> None:
    if choice.grade and choice.is_kept:
        state.choose(choice.game, f'{choice.size} {choice.grade}')


def of_line(game: str, line: str) -> Choice:
    """The choice that the line of a fair game names."""
    _, size, letter, number = line.split()
    return Choice(game, int(size), GRADES[game][letter], int(number))


def of_number(session: Session, size: int, number: Optional[int]) -> Optional[Choice]:
    """The choice by which a fair game of this number was made; nothing where there is no number, or no grade."""
    grade = GRADES[session.game].get(session.letter)
    return Choice(session.game, size, grade, number) if grade and number is not None else None


def first(state: State, game: str) -> Choice:
    """A game as the last one that was chosen; where none was, a small one."""
    return remembered(state, game) or Choice(game, FIRST_SIZE, FIRST_GRADE)


def ids(path: str, choice: Choice, count: int) -> List[str]:
    """So many IDs of such games, each of them once; from its number on where it has one, else by chance. Raises `Unknown` where there are not so many."""
    if choice.is_fair:
        return fair_ids(path, choice, count)
    there = games.stored(choice.game, choice.size, choice.letter)
    if count > len(there):
        raise Unknown(f'There are only {len(there)} of them.')
    return random.sample(there, count)


def fair_ids(path: str, choice: Choice, count: int) -> List[str]:
    """Raises `Unknown`."""
    found: Dict[str, None] = {}
    since = 0
    program = Program(path, choice.game)
    try:
        for number in numbers(choice):
            session = program.ask(fair.line(choice.size, choice.letter, number)).session
            before = len(found)
            found.update({session.id: None} if session else {})
            since = 0 if len(found) > before else since + 1
            if len(found) == count:
                return list(found)
            if since == ALIKE:
                break
    finally:
        program.stop()
    raise Unknown(f'There are only {len(found)} of them.')


def numbers(choice: Choice) -> Iterator[int]:
    """Numbers from that of the choice on, or by chance; of today's game the date alone."""
    number = choice.number
    yield fair.by_chance() if number is None else number
    while choice.is_kept:
        number = None if number is None else (number + 1) % fair.SEEDS
        yield fair.by_chance() if number is None else number
