"""The stream of random words of a seed, and the shuffle that draws from it (docs/RULES.md, section 8).

ChaCha20 is written from its definition: a block is 16 words (four constants, eight of the key, a counter of two words and a stream
number of two, here 0), ten times a round over columns and one over diagonals, added to what it began with.
"""

from typing import Iterator, List, Sequence

WORD = 1 << 32
CONSTANTS = [0x61707865, 0x3320646E, 0x79622D32, 0x6B206574]
COLUMNS = [(0, 4, 8, 12), (1, 5, 9, 13), (2, 6, 10, 14), (3, 7, 11, 15)]
DIAGONALS = [(0, 5, 10, 15), (1, 6, 11, 12), (2, 7, 8, 13), (3, 4, 9, 14)]


def rotated(word: int, by: int) -> int:
    return (word << by | word >> (32 - by)) % WORD


def quarter_round(words: List[int], a: int, b: int, c: int, d: int) -> None:
    for first, second, target, by in ((a, b, d, 16), (c, d, b, 12), (a, b, d, 8), (c, d, b, 7)):
        words[first] = (words[first] + words[second]) % WORD
        words[target] = rotated(words[target] ^ words[first], by)


def block(key: Sequence[int], counter: int) -> List[int]:
    start = [*CONSTANTS, *key, counter % WORD, counter // WORD, 0, 0]
    words = list(start)
    for _ in range(10):
        for quarter in COLUMNS + DIAGONALS:
            quarter_round(words, *quarter)
    return [(word + begun) % WORD for word, begun in zip(words, start)]


def words_of(seed: int) -> Iterator[int]:
    """The words of a seed's stream. The key is the seed's 8 bytes, the greatest first, and 24 zero bytes."""
    return words_of_key(seed.to_bytes(8, 'big') + bytes(24))


def words_of_key(key_bytes: bytes) -> Iterator[int]:
    """The words of the stream of a key of 32 bytes."""
    key = [int.from_bytes(key_bytes[at:at + 4], 'little') for at in range(0, 32, 4)]
    counter = 0
    while True:
        yield from block(key, counter)
        counter += 1


def below(words: Iterator[int], bound: int) -> int:
    """A number below a bound: one word of the stream, and a second one where the first leaves a carry open."""
    upper, lower = divmod(next(words) * bound, WORD)
    if lower > WORD - bound:
        carried = lower + next(words) * bound // WORD
        return upper + 1 if carried >= WORD else upper
    return upper


def shuffled(words: Iterator[int], count: int) -> List[int]:
    """The list 0, 1, .. of so many numbers, shuffled."""
    numbers = list(range(count))
    drawn, left = 0, 0
    for place in range(1, count):
        if left == 0:
            bound = place + 1
            left = 1
            while bound * (place + 1 + left) < WORD:
                bound *= place + 1 + left
                left += 1
            drawn = below(words, bound)
        left -= 1
        drawn, other = divmod(drawn, place + 1) if left else (0, drawn)
        numbers[place], numbers[other] = numbers[other], numbers[place]
    return numbers
