"""The sentences of the hints of 594 games are told anew of their objects alone, as tests/objects tells those of some."""

import pytest

from tests.objects.test_telling import CLASSES, expect_games


@pytest.mark.parametrize(('game', 'size', 'letter'), CLASSES)
def test_games(objects: str, game: str, size: int, letter: str) -> None:
    expect_games(objects, game, size, letter, range(1, 19))
