"""README's picture of a sheet says what such a sheet says: the rules of both games, numbers, captions and the foot."""

import os

from tests.harness import TOP, Browser, Room
from tests.harness.noted import expect_noted
from tests.sheet.making import Maker, content, stored
from tests.sheet.printing import printed, said

PICTURE, DOTS = TOP / 'docs' / 'sheet.png', 62


def test_picture(maker: Maker, paper: Browser, room: Room) -> None:
    lines = content([*stored('towers', 5, 6), *stored('unequal', 5, 9)[:6]])
    page = maker.page(['--ids', '-', '--per-page', '12', '--title', 'Puzzles for Tuesday'], lines)
    first = printed(paper, room, page).texts[0]

    def picture() -> bytes:
        said('pdftoppm', '-r', str(DOTS), '-singlefile', '-png', os.path.join(room.path, 'page.pdf'), os.path.join(room.path, 'first'))
        return room.read('first.png') or b''

    # In whatever order the words stand in the PDF.
    expect_noted(PICTURE, ' '.join(sorted(first.split())), picture)
