"""Which of some lines belong together: drawings may have blank lines in them, and stand below one another."""

from __future__ import annotations

from itertools import takewhile
from typing import Dict, Iterable, List, NamedTuple, Sequence, Tuple

from playing.drawings.readings import copies_in, readings
from playing.drawings.tables import Reading

#: So many lines that aren't blank a drawing has at most: that of nine ruled squares, with its clues and a line or two more.
MOST_LINES = 24


class Part(NamedTuple):
    """Some of the lines, and all that they may be."""

    begin: int
    end: int
    found: List[Reading]


#: The drawings that there may be, from one border to another.
Spans = Dict[Tuple[int, int], List[Reading]]


def parts(lines: Sequence[str], game: str, is_end: bool = True) -> List[Part]:
    """The drawings of lines, in their order; where more lines are to come, those that these can't change."""
    starts = [y for y, line in enumerate(lines) if line.strip(' ') and (y == 0 or not lines[y - 1].strip(' '))]
    # Blank lines before the first and after each block may belong to a drawing.
    borders, count = [0, *starts[1:], len(lines)], len(starts)
    spans = _spans(lines, borders, game)
    # Where more lines are to come, the last drawing may be cut off.
    later = count if is_end else next(at for at in range(count + 1) if _height(lines, borders[at], len(lines)) <= MOST_LINES)
    found: List[Part] = []
    stretches = _uncrossed(spans, 0, count)
    for begin, end in zip(stretches, stretches[1:]):
        whole = _on_whole_ways(spans, begin, end, later)
        sure = _uncrossed(whole, begin, end) if whole else [begin, end]
        for first, last in zip(sure, sure[1:]):
            found.append(Part(borders[first], borders[last], [each for (own, _), all in whole.items() if own == first for each in all]))
    found = _joined(found, lines)
    return found if is_end else [part for part in found if part.end <= borders[later]] or found[:1]


def _height(lines: Sequence[str], begin: int, end: int) -> int:
    """How many lines that aren't blank are among these."""
    return sum(bool(line.strip()) for line in lines[begin:end])


def _spans(lines: Sequence[str], borders: List[int], game: str) -> Spans:
    """All of them; and none begins within a copy of the usual program."""
    spans: Spans = {}
    begin = 0
    while begin < len(borders) - 1:
        ends = takewhile(lambda end: _height(lines, borders[begin], borders[end]) <= MOST_LINES, range(begin + 1, len(borders)))
        own = {end: lines[borders[begin] : borders[end]] for end in ends}
        copy = next((end for end in own if copies_in(own[end], game)), 0)
        found = {(begin, end): readings(own[end], game) for end in ([copy] if copy else own)}
        spans.update({span: all for span, all in found.items() if all})
        begin = copy or begin + 1
    return spans


def _on_whole_ways(spans: Spans, begin: int, end: int, later: int) -> Spans:
    """The drawings of a stretch that can follow one another from its begin to its end, or to a border from which on more lines may come."""
    own = {(first, last): found for (first, last), found in spans.items() if begin <= first < end}
    reached, leading = {begin}, {at for at in range(begin + 1, end + 1) if at == end or at >= later}
    for first, last in own:
        reached |= {last} if first in reached else set()
    for first, last in reversed([*own]):
        leading |= {first} if last in leading else set()
    return {(first, last): found for (first, last), found in own.items() if first in reached and last in leading}


def _uncrossed(spans: Iterable[Tuple[int, int]], begin: int, end: int) -> List[int]:
    """The borders that no drawing crosses."""
    return [at for at in range(begin, end + 1) if not any(first < at < last for first, last in spans)]


def _joined(found: Sequence[Part], lines: Sequence[str]) -> List[Part]:
    """A part that can't be read is one with a part that is too small to be a drawing, and with one that may be torn off: one that something else could belong
    to, beside another that can't be read."""
    torn = [
        any(not beside.found for beside in (*found[max(at - 1, 0) : at], *found[at + 1 : at + 2])) and any(not reading.is_whole for reading in part.found)
        for at, part in enumerate(found)
    ]
    joined: List[Part] = []
    for at, part in enumerate(found):
        own = part._replace(found=[]) if torn[at] else part
        last = joined[-1] if joined else own
        are_one = torn[at] or torn[at - 1] or min(_height(lines, each.begin, each.end) for each in (last, own)) < 3
        if joined and are_one and not last.found and not own.found:
            joined[-1] = Part(last.begin, own.end, [])
        else:
            joined.append(own)
    return joined
