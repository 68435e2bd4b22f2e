"""The sheets of the page are those of the command, byte for byte: the page's modules, run by node, make of random choices what the command makes of its words."""

import json
import os
import random
import subprocess
import unicodedata
from pathlib import Path
from typing import Any, Dict, List, NamedTuple, Tuple

import pytest

from playing.games import GRADES
from sheet.markup import plain, width
from sheet.titles import bold_width
from sheet.words import read
from tests.harness import Room
from tests.harness.skips import need
from tests.sheet.making import Maker, content

#: The scripts that make a sheet by the page's modules, and that tell how wide these take letters.
PAGE, LETTERS = (Path(__file__).with_name(name) for name in ('of_the_page.mjs', 'letters.mjs'))

#: How many choices are tried.
CHOICES = 40

NAMES = ['Anna', 'Ben', 'Ben', 'Çağla Yıldız', 'Jean-Pierre Beauregard de la Fontaine the third, of that name ' * 5, '李小龙', 'שלום', "O'Hara & <Sons>", 'Zoë "Z"']
TITLES = ['Class 4b', 'Clase 4ª B: m², m³ ' * 4, 'Knobelblatt für die Klasse 4b: Türme & <Zahlen>', 'A title of three lines, surely, as it goes on and on ' * 3, '謎題 <&>']
CAPTIONS = ['', 'for Anna', 'Çelik & <Bert> "q"', '李小龍的謎題', 'a very long caption that goes on ' * 5, "it's", 'éèà ' * 15, '한국어 퍼즐', 'タワーズ・パズル ' * 6]


#: Choices of the form: what the page calls them, the word of the command, and some values.
FORMS: List[Tuple[str, str, List[Any]]] = [
    ('title', '--title', ['', '', *TITLES]),
    ('perPage', '--per-page', [0, 0, 0, 1, 2, 3, 4, 6, 9, 12]),
    ('answers', '--answers', ['end', 'end', 'none', 'only']),
    ('grades', '--show-grades', ['answers', 'all', 'none']),
    ('paper', '--paper', ['a4', 'letter']),
]


class Asked(NamedTuple):
    """The words of a command, and the same for the page."""

    words: List[str]
    input: bytes
    page: Dict[str, Any]


def choice(seed: int, room: Room) -> Asked:
    """Of a seed. Half are of a series, and half of those for a class; the others are of a list."""
    dice = random.Random(seed)
    page: Dict[str, Any] = {}
    form: Dict[str, Any] = {'names': [], 'source': ''}
    words, input = listed(dice, page) if dice.random() < 0.4 else seeded(dice, page, form, room)
    for name, word, values in FORMS:
        form[name] = dice.choice(values)
        words += [word, str(form[name])] if form[name] else []
    form['large'] = form['perPage'] < 2 and dice.random() < 0.25
    form['steps'] = '' if form['answers'] == 'none' else dice.choice(['', '', 'first', 'all'])
    words += ['--all-steps'] if form['steps'] == 'all' else ['--steps'] if form['steps'] else []
    for name, word in (('example', '--example'), ('ids', '--ids-below'), ('duplex', '--duplex')):
        form[name] = dice.random() < 0.3
        words += [word] if form[name] else []
    words += ['--large'] if form['large'] else []
    return Asked(words, input, {**page, 'form': form})


def listed(dice: random.Random, page: Dict[str, Any]) -> Tuple[List[str], bytes]:
    page['list'] = [(dice.choice(['towers', 'unequal']), f'{dice.randint(3, 6)}!{dice.randint(0, 9)}', dice.choice(CAPTIONS)) for _ in range(dice.randint(1, 12))]
    return ['--ids', '-'], content([' '.join(row) for row in page['list']])


def seeded(dice: random.Random, page: Dict[str, Any], form: Dict[str, Any], room: Room) -> Tuple[List[str], bytes]:
    game, least = dice.choice(['towers', 'unequal']), dice.randint(3, 7)
    grades = dice.sample({'towers': 'eh', 'unequal': 'tek'}[game] if least > 3 else 'e', 1 + (least > 3 and dice.random() < 0.3))
    sizes = list(range(least, least + dice.choice([1, 1, 2])))
    series, count = dice.choice([1, 7, 20261126, 10**12 - 1]), dice.choice([1, 2, 3, 4, 5, 7, 12])
    page.update({'game': game, 'sizes': sizes, 'letters': grades, 'count': count, 'series': str(series)})
    form['source'] = f', series {series}'
    words = [game, '--size', f'{sizes[0]}-{sizes[-1]}', '--grade', ','.join(GRADES[game][letter] for letter in grades)]
    words += ['--count', str(count), '--series', str(series)]
    if dice.random() < 0.5:
        form['names'] = dice.sample(NAMES, dice.randint(1, 6))
        room.put('names', content(form['names']))
        words += ['--names', 'names']
    return words, b''


@pytest.mark.parametrize('seed', range(CHOICES))
def test_same(maker: Maker, room: Room, seed: int) -> None:
    """A refusal of one is a refusal of the other, for the same reason."""
    need('node')
    asked = choice(seed, room)
    has_words = seed % 4 == 0
    ended = maker.run([*asked.words, '--words'] if has_words else asked.words, asked.input)
    if has_words:
        quoted = again(asked.words)
        asked.page['form'].update(again=quoted[0], titled=quoted[1])
    room.put('asked.json', json.dumps(asked.page).encode())
    made = subprocess.run(['node', str(PAGE), os.path.join(room.path, 'asked.json')], capture_output=True, check=False, timeout=600)
    assert made.returncode in (0, 2), made.stderr.decode()
    assert (ended.status == 0) == (made.returncode == 0), (asked.words, ended.error, made.stderr)
    assert ended.output == made.stdout, asked.words
    if ended.status == 0 and 'list' not in asked.page:
        assert ended.error.decode().replace('puzzles-sheet: ', '') == made.stderr.decode()


def again(words: List[str]) -> Tuple[str, str]:
    """The words of the foot, without the title and with it, as the command has them."""
    asked = read([*words, '--words'])
    return asked.again, asked.titled


def test_letters() -> None:
    """Both take each letter that Unicode has long had as equally wide, and leave out the same ones."""
    need('node')
    letters = [chr(code) for code in range(0x110000) if unicodedata.ucd_3_2_0.category(chr(code)) not in ('Cn', 'Co', 'Cs')]
    made = subprocess.run(['node', str(LETTERS)], input=''.join(letters).encode(), stdout=subprocess.PIPE, check=True, timeout=600)
    found = [[bold_width(letter), width(letter), plain(f'a{letter}b')] for letter in letters]
    assert [(letter, *both) for letter, *both in zip(letters, found, json.loads(made.stdout)) if both[0] != both[1]] == []
