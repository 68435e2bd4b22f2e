"""The course in a terminal: each card is still of its kind, and is played by keys and by lines; nothing that is kept is changed by it."""

import os
from typing import Dict, Optional, Sequence, Tuple

import pytest

from playing import texts
from playing.cards import CARDS, Card
from playing.course import Course
from playing.program import Program
from tests.board.playing import BoardFront
from tests.harness import Room
from tests.harness.cards import SHOWS, Shows

#: A card with what its hint shows.
ALL = [(game, card, shows) for game, cards in CARDS.items() for card, shows in zip(cards, SHOWS[game])]


@pytest.mark.parametrize(('game', 'card', 'shows'), ALL, ids=[f'{game}, {card.title}' for game, card, _ in ALL])
def test_kind(objects: str, game: str, card: Card, shows: Shows) -> None:
    """The program's hint still has that square, that number and these steps. One solution, or none where no number follows."""
    with Program(objects, game, ['--id', card.id]) as program:
        hint, completable = program.ask('hint').hint, program.ask('completable').completable
        size = program.first.board.size if program.first.board else 0
    assert hint and size
    place = hint.square(size)
    assert (place and (place[1] + 1, place[0] + 1), hint.number, [step.reason for step in hint.steps(size)]) == (shows.square, shows.number, list(shows.reasons))
    assert (hint.kind, completable) == (('follows', 'one') if shows.square else ('contradiction', 'none'))
    assert (hint.line is not None, list(card.kind)) == (shows.is_by_line, list(shows.reasons))


def test_all() -> None:
    assert [(game, len(cards)) for game, cards in CARDS.items()] == [('towers', 9), ('unequal', 9)] == [(game, len(shows)) for game, shows in SHOWS.items()]
    assert len({card.id for _, card, _ in ALL}) == len(ALL)


@pytest.mark.parametrize('game', CARDS)
def test_keys(front: BoardFront, room: Room, game: str) -> None:
    """Each card by its number, and Enter, to the end, where that is said; no file is made."""
    with front.window(['learn', game]) as window:
        for at, (card, shows) in enumerate(zip(CARDS[game], SHOWS[game]), 1):
            # The first words of a sentence stand on one line, wherever it is broken.
            window.look('<enter>' if at > 1 else '', [f'Card {at}/{len(CARDS[game])}.', ' '.join(card.text.split()[:2])])
            if shows.square:
                window.look(str(shows.number), ['Right.'])
        window.press('<enter>')
        assert window.status() == 0
        assert b'That was the course.' in window.came
    assert os.listdir(room.path) == []


class Patient:
    """A player who waits."""

    def confirm(self, _: str) -> bool:
        return True

    def choose(self, _: str, __: Sequence[str]) -> Optional[int]:
        return None

    def waiting(self, _: bool) -> bool:
        return False


@pytest.mark.parametrize(('game', 'at'), [(game, at) for game, cards in CARDS.items() for at in range(len(cards))])
def test_right_numbers(objects: str, game: str, at: int) -> None:
    """Each number of the card's only solution is taken, and no other one: by the board with that number the program says which. The card's own is the last."""
    course, shows = Course(objects, game), SHOWS[game][at]
    course.played_by(Patient(), texts.BY_KEYS)
    assert all(course.turn(1) for _ in range(at + 1))
    places = [place for place in course.board.squares if place not in course.board.numbers]
    for x, y in sorted(places, key=lambda place: (place[1] + 1, place[0] + 1) == shows.square):
        for number in range(1, course.board.size + 1):
            line = f'move R{x},{y},{number}'
            with Program(objects, game, ['--id', CARDS[game][at].id]) as program:
                program.ask(line)
                is_right = program.ask('completable').completable == 'one'
            assert (course.play(line) is not None, course.message.startswith('Not yet.')) == (is_right, not is_right), line
            if is_right:
                break
    assert course.board.is_solved == bool(shows.square)


def files_in(room: Room) -> Dict[str, Tuple[Optional[bytes], float]]:
    return {path: (room.read(path), os.stat(path, dir_fd=room.fd).st_mtime) for path in room.paths()}


def test_kept(front: BoardFront, room: Room) -> None:
    """The game before goes on afterwards, and each file is as it was; the last game's course comes where none is named."""
    with front.window(['unequal', '3:0,0L,0L,0U,0,0,0U,0,0,'], leave='q') as window:
        window.look('M2', ['move 1/1'])
    before = files_in(room)
    assert before
    with front.window(['learn'], leave='q') as window:
        window.look('2<enter>M', ['From now on, marks go'])
    assert files_in(room) == before
    front.shows([], 'Unequal 3x3', 'move 1/1')
