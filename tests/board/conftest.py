"""The board that is played on."""

import pytest

from tests.board.playing import BoardFront
from tests.harness import TOP, Room


@pytest.fixture
def front(objects: str, room: Room) -> BoardFront:
    return BoardFront(str(TOP / 'board' / 'puzzles-play'), objects, room)
