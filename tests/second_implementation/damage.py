"""The damaged texts that `crates/trial_runs` makes of a save, kind by kind, in the order of their places.

A record goes from the end of the one before it to the end of its value, so the end of a line stands at the front of the next one.
The bytes after the last record are left out where records are put together again.
"""

from itertools import combinations
from typing import Callable, Dict, Iterator, List

from tests.second_implementation.saves import next_record
from tests.second_implementation.words import Refused

#: The bytes that each byte is changed to: ends of lines, what records and moves are made of, and some that stand in none.
VALUES = [0, 10, 13, 32, 48, 51, 58, 72, 83, 255]


def records_of(text: bytes) -> List[bytes]:
    """The records at the front of a text, up to the first place where none can be read."""
    records: List[bytes] = []
    start = 0
    try:
        record = next_record(text, start)
        while record:
            records.append(text[start:record.end])
            start = record.end
            record = next_record(text, start)
    except Refused:
        pass
    return records


def whole(text: bytes) -> Iterator[bytes]:
    yield text


def bytes_changed(text: bytes) -> Iterator[bytes]:
    return (text[:at] + bytes([value]) + text[at + 1:] for at in range(len(text)) for value in VALUES)


def bytes_left_out(text: bytes) -> Iterator[bytes]:
    return (text[:at] + text[at + 1:] for at in range(len(text)))


def bytes_doubled(text: bytes) -> Iterator[bytes]:
    return (text[:at + 1] + text[at:] for at in range(len(text)))


def cut_off(text: bytes) -> Iterator[bytes]:
    return (text[:at] for at in range(len(text)))


def records_left_out(text: bytes) -> Iterator[bytes]:
    records = records_of(text)
    return (b''.join(records[:at] + records[at + 1:]) for at in range(len(records)))


def records_doubled(text: bytes) -> Iterator[bytes]:
    records = records_of(text)
    return (b''.join(records[:at + 1] + records[at:]) for at in range(len(records)))


def records_exchanged(text: bytes) -> Iterator[bytes]:
    records = records_of(text)
    for first, second in combinations(range(len(records)), 2):
        changed = list(records)
        changed[first], changed[second] = records[second], records[first]
        yield b''.join(changed)


#: Each kind by its name, in the order in which they are answered.
KINDS: Dict[str, Callable[[bytes], Iterator[bytes]]] = {
    'the whole text': whole,
    'a byte changed': bytes_changed,
    'a byte left out': bytes_left_out,
    'a byte doubled': bytes_doubled,
    'cut off': cut_off,
    'a record left out': records_left_out,
    'a record doubled': records_doubled,
    'two records exchanged': records_exchanged,
}
