"""The answers of `crates/trial_runs` to each request of its input.

    python3 -Bm tests.second_implementation.answers < crates/trial_runs/stdin     prints crates/trial_runs/stdout, but for its last two lines
"""

import sys
from pathlib import Path
from typing import Dict, Iterator, Tuple

from tests.second_implementation.damage import KINDS
from tests.second_implementation.fair import fair
from tests.second_implementation.games import GAMES, Game
from tests.second_implementation.saves import Session, load, save
from tests.second_implementation.seeded import generate, square
from tests.second_implementation.words import Refused

#: The answers to a text of a save, in the order of their numbers (docs/FORMATS.md, section 10).
NAMES = [
    'loads', 'NotASave', 'Malformed', 'Version', 'WrongGame', 'Repeated', 'EarlyState', 'Unsupported', 'BadParams', 'BadDesc',
    'BadCount', 'Missing', 'BadState', 'TooLarge', 'OutOfMemory',
]

DATA = Path(__file__).resolve().parents[2] / 'crates' / 'trial_runs' / 'data'

FNV_START = 0xCBF29CE484222325
FNV_PRIME = 0x100000001B3


def digest_onto(digest: int, text: bytes) -> int:
    """FNV-1a of 64 bits, gone on with."""
    for byte in text:
        digest = (digest ^ byte) * FNV_PRIME % (1 << 64)
    return digest


def answers(request: str, data: Path) -> Iterator[str]:
    """The lines that answer a line of the input. Saves lie below `data`, in a folder for each game."""
    if request.startswith('#'):
        yield request
        return
    task, _, argument = request.partition(' ')
    if task == 'load':
        yield loaded(argument, data)
    elif task == 'damage':
        yield request
        yield from damaged(argument, data)
    elif task == 'fair':
        yield f'{request} {fair_game(argument)}'
    else:
        size, seed = (int(word) for word in argument.split())
        yield f'{request} {seeded(task, size, seed)}'


def lines_of(request: str) -> int:
    """How many lines answer a line of the input."""
    return 1 + len(KINDS) if request.startswith('damage ') else 1


def save_file(name: str, data: Path) -> Tuple[Game, bytes]:
    return GAMES[name.partition('/')[0]], (data / name).read_bytes()


def loaded(name: str, data: Path) -> str:
    """The fate of a save file."""
    game, text = save_file(name, data)
    try:
        session = load(game, text)
    except Refused as refused:
        return f'{name}; {refused.name}'
    respelled = '' if save(session) == text else ' respelled'
    return f'{name}; ok; {session.status()}; {session.game_id()};{respelled}'


def told(session: Session) -> bytes:
    """A loaded session as a text: its status, and its save."""
    return session.status().encode() + b'\n' + save(session)


def answer(game: Game, text: bytes) -> Tuple[str, bytes]:
    """The name of the answer to a text, and the answer in full."""
    try:
        return 'loads', told(load(game, text))
    except Refused as refused:
        return refused.name, refused.text().encode() + b'\n'


def damaged(name: str, data: Path) -> Iterator[str]:
    """For each kind of damage how many texts there were, a digest of the answers in order, and how often each answer came."""
    game, text = save_file(name, data)
    for kind, texts_of in KINDS.items():
        digest = FNV_START
        came: Dict[str, int] = {}
        for damaged_text in texts_of(text):
            found, in_full = answer(game, damaged_text)
            digest = digest_onto(digest, in_full)
            came[found] = came.get(found, 0) + 1
        counts = ''.join(f'; {found} {came[found]}' for found in NAMES if found in came)
        yield f'{kind}; {sum(came.values())}; {digest:016x}{counts}'


def seeded(task: str, size: int, seed: int) -> str:
    """The numbers of a seed's square, or the ID of its game."""
    if task == 'square':
        return ''.join(str(number) for number in square(size, seed))
    return f'{size}:{generate(task, size, seed).description()}'


def fair_game(argument: str) -> str:
    """The ID of a fair game, or the name of its refusal."""
    game, size, letter, seed = argument.split()
    try:
        return f'{size}d{letter}:{fair(game, int(size), letter, int(seed)).description()}'
    except Refused as refused:
        return refused.name


if __name__ == '__main__':
    for asked in sys.stdin.read().splitlines():
        print(*answers(asked, DATA), sep='\n')
