"""A player at the page: what is pressed and touched there, and what is seen and said."""

from __future__ import annotations

import json
import re
from typing import Callable, List, Optional, Sequence, Set, Tuple, Union

from playing.naming import Place
from tests.board.playing import to_and_fro
from tests.harness import BLANK, ID, RIGHT, TOP
from tests.harness.played import Line
from tests.page.seen import Seen, at

#: Sizes of windows.
LAPTOP, PHONE, SMALL = (1280, 800), (390, 844), (320, 568)
WINDOWS = {'LAPTOP': LAPTOP, 'PHONE': PHONE, 'SMALL': SMALL}

#: A clue above that the number 1 in its first square contradicts, in a game without givens.
TOWERS = f'towers:{ID}'

#: A game of Unequal whose first square is the least of three.
UNEQUAL = 'unequal:3:0,0L,0L,0U,0,0,0U,0,0,'

#: The acts, as `Player.look` has them: keys; or the place of a click, and how, if not by the left button. And keys with Control, or others.
ACTS = re.compile(r'([^{]+)|\{(?:(tap|hold|right|enter|menu|switch|load|reload|forget)\b ?)?([^}]*)\}')
KEYS = re.compile(r'<ctrl-(.)>|((?:<(?!ctrl-)[a-z]+>|[^<])+)')
KEY = re.compile(r'<(up|down|left|right)>|<([a-z]+)>|(.)')

#: A picture beside the page, which keeps nothing; of a disk's pages Chromium shows it what they keep.
BESIDE = f'file://{TOP}/page/icon.svg'

#: The page shows a board.
THERE = 'document.querySelector("[data-place]")'

#: The page keeps nothing any more.
NOTHING_MORE = 'Storage.prototype.setItem = IDBObjectStore.prototype.put = () => undefined'

#: Clears the database that has each change, too. The page writes nothing into it any more. Deleting it would wait for pages that WebKit hasn't left yet.
NO_JOURNAL = """new Promise((done) => {
  const request = indexedDB.open("verified-puzzles");
  IDBObjectStore.prototype.put = () => undefined;
  request.onupgradeneeded = () => request.result.createObjectStore("texts");
  request.onerror = () => done(true);
  request.onsuccess = () => {
    if (!request.result.objectStoreNames.contains("texts")) { request.result.close(); done(true); return; }
    const cleared = request.result.transaction("texts", "readwrite");
    cleared.objectStore("texts").clear();
    cleared.oncomplete = cleared.onabort = () => { request.result.close(); done(true); };
  };
})"""


class Player(Seen):
    """Opens the page, and plays: what is pressed and written there, and the files that come and go."""

    def press(self, keys: str) -> None:
        """One after the other, as on the board in a terminal: `2<right><ctrl-z>`."""
        for control, others in KEYS.findall(keys):
            names = [f'Arrow{arrow.title()}' if arrow else name.title() or character for arrow, name, character in KEY.findall(others)]
            self.driver.press(*(control or names), control=bool(control))

    def _target(self, what: str) -> str:
        """The selector of a place, a number of the pad, or a button by its text; or that selector itself. Waits until it is seen: an answer brings it, maybe."""
        if what[0] not in '#.[' and not re.fullmatch(r'-?\d(,-?\d)?', what):
            return self._button(what)
        selector = what if what[0] in '#.[' else f'[data-{"place" if "," in what else "number"}="{what}"]'
        self.is_shown(selector)
        return selector

    def _button(self, text: str, among: str = 'button') -> str:
        """The selector of a button with that text, among those that are seen, once it is there."""
        self.driver.wait_for(
            f'((all, node = all("{among}").find((one) => one.textContent.trim() === {json.dumps(text)} && one.getClientRects().length)) => {{'
            ' if (node) { all("[data-test]").forEach((one) => one.removeAttribute("data-test")); node.dataset.test = "it"; } return Boolean(node); })'
            '((selector) => [...document.querySelectorAll(selector)])'
        )
        return '[data-test=it]'

    def write(self, selector: str, text: str) -> None:
        """Writes into a field, or chooses of a list."""
        self.value(
            f'((node) => {{ node.value = {json.dumps(text)}; for (const kind of ["input", "change"]) node.dispatchEvent(new Event(kind, {{bubbles: true}}));'
            f' return true; }})(document.querySelector({json.dumps(selector)}))'
        )

    def drop(self, content: Union[bytes, int], name: str = 'a.sav', **waits: str) -> None:
        """Drops a file onto the page, or one of so many bytes; and waits as `look` does. What was told before is gone, as it may be told once more."""
        parts = f'new Uint8Array({content})' if isinstance(content, int) else f'Uint8Array.from({json.dumps(list(content))})'
        script = f'const data = new DataTransfer(); data.items.add(new File([{parts}], {json.dumps(name)}));'
        script += ' document.querySelector("#told").replaceChildren();'
        self.value(f'(() => {{ {script} document.dispatchEvent(new DragEvent("drop", {{dataTransfer: data, cancelable: true}})); return true; }})()')
        self.look('', **waits)

    def caught(self, does: str, **waits: str) -> bytes:
        """The bytes of the file that the page gives when something is done, as in `look`."""
        self.value('(URL.createObjectURL = (blob) => { window.file = blob; return "#"; }, true)')
        self.look(does, **waits)
        self.driver.wait_for('window.file')
        return bytes(self.value('window.file.arrayBuffer().then((all) => [...new Uint8Array(all)])'))

    def __enter__(self) -> Player:
        return self

    def __exit__(self, *_: object) -> None:
        self.forget()
        self.driver.go(BLANK)

    def look(self, does: str, *names: str, **waits: str) -> None:
        """Does something, and waits until squares have these names, and for more by `waits`, as `told='Right.'`.

        Keys are those of `press`. The place of a click stands in braces: a square or clue by its place `{1,0}`, a number of the pad `{2}`, a button by its text
        `{Hint}`, or anything by its selector `{#offer}`; touched or held with `tap` or `hold` ahead, or clicked by the other button with `right`.
        `{enter ..}`, `{menu Pause}`, `{switch Show equal numbers}`, `{load}` and `{forget}` do what these methods do, `{reload}` what the
        driver's does, and `{#desk-size = 5}` writes.
        """
        for keys, how, what in ACTS.findall(does):
            if keys:
                self.press(keys)
            elif how in ('enter', 'menu', 'switch', 'load', 'forget'):
                getattr(self, how)(what)
            elif how == 'reload':
                self.driver.reload(THERE)
            elif ' = ' in what:
                self.write(*what.split(' = '))
            elif how == 'right':
                self.driver.click(self._target(what), RIGHT)
            else:
                getattr(self.driver, how or 'click')(self._target(what))
        for name in names:
            self.is_called(name)
        for what, text in waits.items():
            self.waits(what, text)

    def play(self, lines: Sequence[Line]) -> None:
        """A transcript. A run has a link and a window's name as its words, and `!` stands before a script. The expected sight has `¦` between its parts: names of
        squares and clues, or what is waited for, as `told: Right.`
        """
        for kind, does, seen in lines:
            if kind == '$':
                link, _, window = does.partition(' ')
                self.sit(link, WINDOWS.get(window))
            elif kind == '!':
                self.value(f'({does}, true)')
            else:
                self.look(does)
            for part in [part for line in seen for part in line.split(' ¦ ')]:
                what, colon, text = part.partition(': ')
                if colon:
                    self.waits(what, text)
                else:
                    self.waits('is_called', part)

    def sit(self, link: str = '', size: Optional[Tuple[int, int]] = None) -> None:
        """Opens the page with what stands after its #, in a browser that keeps nothing of it yet."""
        if size:
            self.driver.size(*size)
        self.load(link)

    def load(self, link: str = '') -> None:
        """Opens the page, as on the next day."""
        self.driver.go(BLANK)
        self.driver.go(self.address + (f'#{link}' if link else ''))
        self.driver.wait_for(f'document.readyState === "complete" && {THERE}')

    def enter(self, selector: str) -> None:
        """Goes to a button, and presses it as Enter does. Firefox's driver has no window in front, in which that key would."""
        self.value(f'((node) => {{ node.focus(); node.click(); return true; }})(document.querySelector("{selector}"))')

    def forget(self, _: str = '') -> None:
        """The browser keeps nothing any more, whatever the page and tabs that were closed are still about to keep."""
        self.driver.value(f'({NOTHING_MORE}, localStorage.clear(), sessionStorage.clear(), {NO_JOURNAL})')
        self.driver.go(BESIDE)
        self.driver.wait_for('localStorage.length + sessionStorage.length === 0 || (localStorage.clear(), sessionStorage.clear())')

    def menu(self, text: str) -> None:
        """A button of the menu, as Enter presses it: what lies behind has the same text sometimes, as the offer of a first visit, which goes with the first move."""
        self.look('{Menu}', is_shown='#menu')
        self._button(text, '#menu button')
        self.enter('[data-test=it]')

    def switch(self, text: str) -> None:
        """A setting of the menu, which is left then."""
        self.menu(text)
        self.leaves('#menu')

    def leaves(self, selector: str) -> None:
        """Leaves a dialog."""
        self.press('<escape>')
        self.closes(selector)

    def begin(self, title: str, **values: str) -> None:
        """A new game, by what is chosen and written; and waits until it has this title."""
        self.look('n', is_shown='#fresh')
        for name, value in values.items():
            self.write(f'#fresh-{name}', value)
        self.look('{Begin}', closes='#fresh', called=title)

    def put(self, how: str, x: int, y: int, number: int) -> None:
        """Puts a number into a square or clue: by keys, by mouse, or with a finger. A driver without a finger has a mouse."""
        if how == 'keys':
            self.go_to(x, y, str(number))
        else:
            self.touch(how, at(x, y))
            self.touch(how, f'#pad [data-number="{number}"]')

    def touch(self, how: str, selector: str) -> None:
        (self.driver.tap if how == 'finger' and self.driver.has_touch else self.driver.click)(selector)

    def go_to(self, x: int, y: int, keys: str = '') -> None:
        """By arrows; and presses keys there."""
        from_x, from_y = self.chosen() if self.value('document.activeElement.dataset.place') else (0, 0)
        self.press('<down>' * (y - from_y) + '<up>' * (from_y - y) + '<right>' * (x - from_x) + '<left>' * (from_x - x) + keys)

    def answer(self, text: str) -> None:
        """Answers a question."""
        self.answer_once(text)
        self.closes('#ask')

    def answer_once(self, text: str) -> None:
        """The same, where another dialog comes after it."""
        self.is_shown('#ask')
        self.look(f'{{{text}}}')
        self.is_gone('#ask')

    def closes(self, selector: str) -> None:
        """Waits until a dialog is closed, and the board has the focus."""
        self.is_gone(selector)
        self.driver.wait_for('document.activeElement.dataset.place')


#: The page, before which a script runs.
Scripted = Callable[[str], Player]


def squares(numbers: Sequence[int], givens: Set[Place]) -> List[Tuple[Place, int]]:
    """The squares that are to be filled, row by row to and fro, with their numbers."""
    size = int(len(numbers) ** 0.5)
    return [((x, y), numbers[y * size + x]) for x, y in to_and_fro(size) if (x, y) not in givens]
