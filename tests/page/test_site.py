"""The folder for a web server: a browser may install the page from there, and has it where the server is gone."""

import pytest

from tests.harness import Browser, Room
from tests.page.conftest import serving
from tests.page.playing import Player
from web_build.site import files

#: The files that the script has kept, once it is at work.
KEPT = 'navigator.serviceWorker.ready.then(() => caches.keys()).then((names) => caches.open(names[0])).then((kept) => kept.keys()).then((all) => all.length)'


@pytest.mark.always
def test_site(browser: Browser, room: Room) -> None:
    for name, content in files().items():
        room.put(name, content)
    browser.complaints.clear()
    with serving(room.path) as address:
        player = Player(browser, address)
        player.sit('towers:3:3//////3/////')
        assert player.value(KEPT) == len(files()) - 1
        assert browser.ask('Page.getInstallabilityErrors')['installabilityErrors'] == []
    assert browser.complaints == []
    with player:
        player.look('{load}', called='Towers 3×3')
        player.value('navigator.serviceWorker.getRegistration().then((it) => it.unregister())')
    browser.complaints.clear()
