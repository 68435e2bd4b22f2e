"""The command that is tried, and a browser for paper."""

import pytest

from tests.harness import Browser, Room
from tests.sheet.making import Maker


@pytest.fixture
def maker(objects: str, room: Room) -> Maker:
    return Maker(objects, room)


@pytest.fixture
def paper(browser: Browser) -> Browser:
    """As it is at first."""
    browser.plain()
    return browser
