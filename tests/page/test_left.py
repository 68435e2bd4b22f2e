"""Browsers leave nothing behind, as all that they make lies in the room of their case."""

import pytest

from tests.harness import Browser, Room


@pytest.mark.always
def test_chromium(room: Room) -> None:
    """It makes a folder for others of its kind, which stays where it is killed."""
    browser = Browser(room)
    browser.end()
    assert [name for name in room.names() if name.startswith('org.chromium.')]
