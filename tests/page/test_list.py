"""The list of all games: its order, its place, and a thousand of them."""

from typing import List

from tests.page.playing import LAPTOP, PHONE, TOWERS, UNEQUAL, Player

#: Copies of the game that is kept, each a minute older than the one before, every third of them solved.
COPIES = """
(() => {
  const name = Object.keys(localStorage).find((name) => name.startsWith('puzzles:game:')), game = JSON.parse(localStorage[name])
  for (let at = 1; at <= COUNT; at++) {
    const own = {key: `copy${at}`, when: game.when - at * 60000, state: at % 3 ? 'playing' : 'solved', seconds: at}
    localStorage[`puzzles:game:copy${at}`] = JSON.stringify({...game, ...own})
  }
  return true
})()
"""

KEYS = '[...document.querySelectorAll("#games-list [data-key]")].map((node) => node.dataset.key)'

#: The item of the list in which the focus is.
FOCUSED = 'document.activeElement.closest("li")?.querySelector("[data-key]").dataset.key'

#: How far below the window's top the item is in which the focus is.
PLACE = 'document.activeElement.closest("li").getBoundingClientRect().top'


def full(player: Player, count: int, link: str = TOWERS) -> None:
    """Opens the list of so many games, besides the present one."""
    player.load(link)
    player.value(COPIES.replace('COUNT', str(count)))
    player.look('o', is_shown='#games')


def keys(player: Player) -> List[str]:
    """Of the copies, in the order of the list."""
    return [key for key in player.value(KEYS) if key.startswith('copy')]


def test_order(player: Player) -> None:
    """Games that are to be finished come first, and of each kind the last one that was played."""
    player.driver.size(*LAPTOP)
    full(player, 7)
    assert keys(player) == [f'copy{at}' for at in (1, 2, 4, 5, 7, 3, 6)]
    player.driver.wait_for('document.querySelectorAll("#games-list .small-board rect").length > 14')


def test_place(player: Player) -> None:
    """After Delete, and after No, the list is where it was; the focus is at the next game, or at the same."""
    player.driver.size(*PHONE)
    full(player, 30)
    player.value('(document.querySelector("[data-gone=copy16]").scrollIntoView({block: "center"}), document.querySelector("[data-gone=copy16]").focus(), true)')
    player.settles()
    place = player.value(PLACE)
    assert 200 < place < 600
    for answer, focused in [('No', 'copy16'), ('Yes', 'copy17'), ('Yes', 'copy19')]:
        player.look(f'{{[data-gone={player.value(FOCUSED)}]}}', answer_once=answer)
        player.driver.wait_for(f'{FOCUSED} === "{focused}"')
        player.settles()
        assert abs(player.value(PLACE) - place) < 8, focused
    player.has(29, '#games-list li')
    assert not {'copy16', 'copy17'} & set(keys(player))


def test_delete_finished(player: Player) -> None:
    """After one question, for all; what was solved stays in the statistics. Where none is finished there is nothing to delete."""
    player.driver.size(*LAPTOP)
    full(player, 7)
    player.look('{Delete all solved}', is_shown='#ask')
    assert player.text('#ask-text') == 'Delete 2 games, solved or filled in, for good? Statistics and calendar stay.'
    player.answer_once('No')
    assert len(keys(player)) == 7
    player.look('{Delete all solved}', answer_once='Yes')
    player.has(6, '#games-list li')
    assert keys(player) == [f'copy{at}' for at in (1, 2, 4, 5, 7)]
    player.look('', is_gone='#games-finished', games='6')
    assert player.value('document.activeElement.textContent') == 'Close'


def test_delete_present(player: Player) -> None:
    """Another game of its kind begins, and the list shows it."""
    player.sit(UNEQUAL)
    player.begin('Towers 4×4', id='towers-4-easy-5')
    player.look('o', is_shown='#games')
    for _ in range(2):
        first = player.value(KEYS)[0]
        player.look('{#games-list li:first-child [data-gone]}', answer_once='Yes')
        player.driver.wait_for(f'!document.querySelector("[data-key={first}]") && document.querySelectorAll("#games-list li").length === 2')
        assert first not in [game['key'] for game in player.kept()]
    assert player.value('document.querySelector("#games-none").hidden') and len(player.kept()) == 2
    player.look('<escape>', closes='#games', called='Towers 4×4', counts='0 of 1')


def test_thousand(player: Player) -> None:
    """Only pictures that are seen are drawn: that of a large board has a hundred elements."""
    player.driver.size(*PHONE)
    full(player, 1000, 'towers-9-hard-5')
    player.has(1001, '#games-list li')
    drawn = 'Boolean(document.querySelector("[data-key=KEY] .ground"))'
    for near, far in [('copy1', 'copy500'), ('copy500', 'copy998')]:
        player.value(f'(document.querySelector("[data-key={near}]").scrollIntoView(), true)')
        player.driver.wait_for(drawn.replace('KEY', near))
        assert player.value(drawn.replace('KEY', far)) is False
    assert player.value('document.querySelectorAll("#games-list *").length') < 25_000
