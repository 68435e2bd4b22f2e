"""A printed puzzle is typed or pasted at New, or let fall as a file: it is shown back before it counts, and then checked; and it is copied as text."""

import pytest

from tests.harness import ID, save_text
from tests.page.playing import PHONE, TOWERS, Player

#: As a newspaper prints it, and what is read of it. The one way to fill it is 1 2 3, 2 3 1, 3 1 2.
PRINTED = '  3 - -\n3 . . . -\n- . . . -\n- . . . -\n  - - -\n'
READ = 'Towers 3x3, 2 clues, 0 given'
SIGNED = '.<.<.\n^\n. . .\n^\n. . .\n'


def paste(player: Player, text: str) -> None:
    player.look('n', is_shown='#fresh')
    player.write('#fresh-id', text)


def shows(player: Player, text: str) -> None:
    """Waits until the puzzle that was read is shown."""
    player.driver.wait_for(f'document.querySelector("#fresh-read").textContent.includes({text!r})')


@pytest.mark.always
@pytest.mark.parametrize(('drawn', 'read', 'id'), [(PRINTED, READ, ID), (SIGNED, 'Unequal 3x3, 4 signs, 0 given', '3:0,0L,0L,0U,0,0,0U,0,0,')], ids=['Towers', 'Unequal'])
def test_checked(player: Player, drawn: str, read: str, id: str) -> None:
    player.sit(TOWERS, PHONE)
    paste(player, drawn)
    shows(player, read)
    player.look('{Check it}', closes='#fresh')
    player.waits('ruled', '✓ Exactly one solution')
    assert id in player.value('JSON.stringify(localStorage)')


def test_several(player: Player) -> None:
    """A list, with what can't be read by its line, and a form that would do; the one of a list that is pressed is taken."""
    player.sit(TOWERS, PHONE)
    paste(player, f'Futoshiki\n{SIGNED}\n3 1 2\n1 2\n\n{ID}\n')
    shows(player, 'Unequal 3x3, 4 signs, 0 given')
    shows(player, 'Line 8: 2 lines, and a drawing has from 3 to 24.')
    shows(player, '2 . . . -')
    player.look('{Begin}')
    player.driver.wait_for('document.querySelector("#fresh-id").validationMessage.startsWith("There are several")')


@pytest.mark.parametrize('text', [f'Skyscrapers {ID}', f'"{ID}"', f'towers:{ID}', save_text(1).decode()], ids=['name', 'quotes', 'link', 'save'])
def test_other_texts(player: Player, text: str) -> None:
    """An ID, a link and a save are taken, too."""
    player.sit(TOWERS, PHONE)
    paste(player, text)
    player.look('{Begin}', closes='#fresh', called='Towers 3×3')


def test_dropped(player: Player) -> None:
    """A file with a drawing opens New; one without is refused as a save is."""
    player.sit(TOWERS, PHONE)
    player.drop(PRINTED.encode(), 'a.txt', is_shown='#fresh')
    shows(player, READ)
    player.look('{Cancel}', closes='#fresh')
    player.drop(b'nothing of that', 'b.txt', told='This is not a save file of the collection')


@pytest.mark.always
def test_copied(player: Player) -> None:
    """As the usual program copies it; where a browser lets no page copy, the text is shown."""
    player.sit(f'towers:{ID}', PHONE)
    player.value('Object.defineProperty(navigator, "clipboard", {value: {writeText: async (text) => { window.copy = text; }}}) && true')
    player.look('{menu Copy as text}', told='The puzzle is copied as text.')
    assert player.value('window.copy') == f'   3    \n\n3{" " * 10}\n{" " * 11}\n{" " * 11}\n\n{" " * 8}\n'
