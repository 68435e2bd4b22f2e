"""The steps of the answers, and the example: which moves are told, in the sentences of the program's hints, and that no text is torn."""

import re
from html import unescape
from typing import List

import pytest

from playing.cards import CARDS
from playing.program import Program
from tests.harness import by_words
from tests.harness.cards import SHOWS
from tests.second_implementation.puzzles import Puzzle
from tests.sheet.making import Maker, content
from tests.sheet.reading import pictures
from tests.sheet.test_seeds import TOWERS, UNEQUAL, ids

#: The beginning of a move: its number, whether it is the hardest, and whether its first sentence stands on the same line.
MOVE = re.compile(r'<p><b>Move (\d+)(, the hardest)?(\.)?</b>')


def paragraphs(text: str) -> List[str]:
    """The text of some paragraphs, without the blocks that they stand in."""
    return [unescape(piece).strip() for piece in re.sub('<[^>]*>', '\n', text).split('\n') if piece.strip()]


def hinted(objects: str, puzzle: Puzzle, id: str) -> List[str]:
    """The sentences of the first hint of a puzzle, with the names that the program gives them; a step that is the only one has no number."""
    game = 'unequal' if '/' not in id else 'towers'
    with Program(objects, game, ['--id', id]) as program:
        hint = program.ask('hint').hint
    assert hint and hint.grade and hint.text
    found = [sentence.whole for sentence in hint.sentences]
    return found if any(text.startswith('2. ') for text in found) else [re.sub('^1[.] ', '', text) for text in found]


def test_steps(maker: Maker, objects: str) -> None:
    """The first three moves, and the hardest one, in the sentences of the hints, after the answers."""
    for game in ('towers', 'unequal'):
        page = maker.page([game, '--size', '6', '--count', '4', '--steps', '--title', 'Four'])
        assert re.findall(r'<h1 dir="auto">([A-Za-z: ]*)<bdi>', page) == ['', 'Answers: ', 'Steps: ']
        assert re.findall(r'<p class="first"><b>(\d+)</b> (\w+)</p>', page) == [(str(number), 'Easy') for number in range(1, 5)]
        blocks = re.split(r'<p class="first">', page)[1:]
        for id, picture, block in zip(ids(page), pictures(page), blocks):
            moves = MOVE.findall(block)
            assert [number for number, *_ in moves[:3]] == ['1', '2', '3'] and len(moves) in (3, 4)
            assert len([hardest for _, hardest, _ in moves if hardest]) == 1
            first = MOVE.split(block)[4]
            assert ' '.join(paragraphs(first)) == ' '.join(hinted(objects, picture.puzzle, id))


def test_numbers(maker: Maker) -> None:
    """No two numbers stand in a row, as in `Move 1. 1.`: the label of a move with several steps stands alone."""
    for words in (['towers', '--grade', 'hard', '--size', '6'], ['unequal', '--size', '6', '--grade', 'tricky']):
        page = maker.page([*words, '--count', '4', '--steps', '--example'])
        moves = re.findall(r'<p><b>Move \d+(?:, the hardest)?\.</b> (\S+)', page)
        assert moves and not [word for word in moves if re.fullmatch('[0-9]+[.]', word)]
        assert re.findall(r'<p><b>Move \d+(?:, the hardest)?</b></p><p>1[.] ', page), 'some have several steps'


#: The words of a sheet with steps, and whether each puzzle is to be shorter than a column.
LISTINGS = [
    (['towers', '--size', '6', '--grade', 'hard'], True),
    (['unequal', '--size', '6', '--grade', 'tricky', '--paper', 'letter'], True),
    (['towers', '--size', '5', '--large', '--count', '4'], True),
    (['towers', '--size', '9', '--grade', 'hard', '--large', '--count', '2'], False),
]


@pytest.mark.parametrize(('words', 'is_short'), by_words(LISTINGS))
def test_whole(maker: Maker, words: List[str], is_short: bool) -> None:
    """It is said which moves are told; no puzzle goes on in the next column, unless it is longer than one, and never a move."""
    page = maker.page([*words, '--steps', '--answers', 'only'])
    assert page.count('The others are left out, since they are found in the same ways.') == 1
    columns = re.findall(r'<div class="steps" [^>]*>(.*?)</div>', page, re.DOTALL)
    assert len(columns) > 1
    for column in columns[1:]:
        begins = '<p class="first">' if is_short else '(<p class="first">|<p><b>Move )'
        assert re.match(begins, column), column[:200]


#: A term of the sentences, and how it is explained.
TERMS = [('with the numbers in', 'With the numbers in a row'), ('by what is left in', 'By what is left in a row')]


def test_terms(maker: Maker) -> None:
    """A term that stands in the steps is explained above them, and no other one."""
    for words in (['towers', '--size', '6', '--grade', 'hard'], ['towers', '--size', '4', '--count', '2'], ['unequal']):
        texts = paragraphs(maker.page([*words, '--steps', '--answers', 'only']).partition('Steps: ')[2])
        above = next(at for at, text in enumerate(texts) if text.startswith('Each puzzle has here'))
        for term, explained in TERMS:
            is_used = any(term in text for text in texts[above:])
            assert len([text for text in texts[:above] if text.startswith(explained)]) == (1 if is_used else 0), term


def test_example(maker: Maker) -> None:
    """The cards of the course come first, of each game board by board: each with the number that follows, its sentence and those of the steps."""
    lines = content([TOWERS, UNEQUAL])
    page, without = maker.page(['--ids', '-', '--example'], lines), maker.page(['--ids', '-'], lines)
    kinds = re.findall(r'<h1 dir="auto">([A-Za-z: ]*)<bdi>', page)
    assert set(kinds[: kinds.index('')]) == {'Example: '}
    drawn, at = pictures(page), 0
    blocks = re.findall(r'<div class="example".*?</div></div>', page, re.DOTALL)
    for game, cards in CARDS.items():
        for card, shows in zip(cards, SHOWS[game]):
            board, texts = drawn[at], paragraphs(blocks[at].partition('</svg>')[2])
            assert (board.game, board.id) == (game, card.id)
            put = [(cell, number) for cell, (number, given) in enumerate(zip(board.numbers, board.puzzle.givens)) if number != given]
            size = board.puzzle.size
            assert put == ([((shows.square[0] - 1) * size + shows.square[1] - 1, shows.number)] if shows.square else [])
            assert texts[:2] == [card.title, card.text] and len(texts) >= 3 + bool(shows.reasons)
            assert ('thick frame' in texts[-1]) == (card is cards[0])
            at += 1
    assert ids(page)[at:] == ids(without)
    assert len(re.findall('<path class="hint"', page)) == at == len(blocks)


def test_steps_end(maker: Maker) -> None:
    """Where no grade has the steps to the end, that is told."""
    page = maker.page(['--ids', '-', '--steps', '--answers', 'only'], content([TOWERS, UNEQUAL, '3:3//////3/////']))
    assert page.count('</b> After that no number follows by steps.</p>') == 2
