"""Why there are no other solutions, where no hint follows. Numbers are supposed until a square has none left. All that this doesn't need is given up again; the
rest is a lemma, squares that can't all have some numbers, and is known from then on."""

from __future__ import annotations

from typing import Any, Callable, Dict, Iterable, List, NamedTuple, Optional, Sequence, Set, Tuple, Union

from check.narrowing import Bits, Grid, Look, Strikes, bits_of

#: A step of a certificate, as it is written there.
Step = List[Any]

#: By so much more a lemma counts than the one before.
GROWTH = 1.05


class Struck(NamedTuple):
    """A look, and what it took away."""

    look: Look
    strikes: Strikes


class Lemma(Look):
    """Squares, each with numbers: not all of them have one of these. What shows it; and as a look, by which the last that may have another number has one."""

    def __init__(self, numbers: Dict[int, Bits], shown: List[Struck]) -> None:
        is_single = len(numbers) == 1 and all(bits & (bits - 1) == 0 for bits in numbers.values())
        super().__init__('suppose' if is_single else 'kept', 0, list(numbers))
        self._numbers, self._shown = numbers, shown

    def strikes(self, left: Sequence[Bits]) -> Strikes:
        others = [square for square, bits in self._numbers.items() if left[square] & ~bits]
        last = others[0] if others else self.squares[0]
        gone = left[last] & self._numbers[last]
        return [(last, gone)] if gone and len(others) < 2 else []

    @property
    def looks(self) -> List[Look]:
        return [struck.look for struck in self._shown]

    @property
    def step(self) -> Step:
        numbers, shown = named(self._numbers.items()), steps_of(self._shown)
        return ['lemma', numbers, shown] if self.kind == 'kept' else ['suppose', self.squares[0], numbers[0][1][0], shown]


def named(strikes: Iterable[Tuple[int, Bits]]) -> List[Any]:
    return [[square, [number + 1 for number in bits_of(bits)]] for square, bits in strikes]


def steps_of(struck: Iterable[Struck]) -> List[Step]:
    """But of a number that was supposed, which goes by the supposition itself."""
    return [[look.kind, look.what, named(strikes)] for look, strikes in struck if look.kind != 'suppose']


def follow(left: List[Bits], looks: Iterable[Look]) -> List[Struck]:
    """Takes away what looks rule out, one after the other, until a square has no number."""
    found = []
    for look in looks:
        strikes = look.strikes(left)
        if strikes:
            found.append(Struck(look, strikes))
        for square, bits in strikes:
            left[square] &= ~bits
        if not all(left[square] for square, _ in strikes):
            break
    return found


def is_end(left: Sequence[Bits], looks: Iterable[Look]) -> bool:
    """Whether they lead from there to a square without a number."""
    branch = list(left)
    follow(branch, looks)
    return not all(branch)


class Search:
    """The numbers that are left for good, and all that is known, in order."""

    def __init__(self, grid: Grid, left: Iterable[Iterable[int]], solution: Optional[Sequence[int]], check: Callable[[], None]) -> None:
        self._grid, self._solution, self._check = grid, solution, check
        self._left: List[Bits] = [sum(1 << number - 1 for number in numbers) for numbers in left]
        self._looks: List[Look] = []
        self._looks_of: List[Set[int]] = [set() for _ in self._left]
        self._known: List[Union[Struck, Lemma]] = []
        #: What is supposed again, as the last lemma needed it before its latest; how often, and how lately, lemmas had to do with a square.
        self._again: List[Tuple[int, Bits]] = []
        self._weights, self._weight = [1.0] * len(self._left), 1.0

    def run(self) -> None:
        """Until a square has no number, or each has one. A number's columns count only after the first lemma: without any all is as the hints see it."""
        self._know(self._grid.looks)
        more = self._grid.numbers
        while all(self._left) and self._open(self._left):
            lemma = self._learned()
            self._known.append(lemma)
            self._know([lemma, *more])
            more = []

    def _open(self, left: Sequence[Bits]) -> List[int]:
        return [square for square, bits in enumerate(left) if bits & (bits - 1)]

    def _know(self, looks: Sequence[Look]) -> None:
        """Looks, and what they lead to."""
        places = range(len(self._looks), len(self._looks) + len(looks))
        self._looks += looks
        for place in places:
            for square in self._looks[place].squares:
                self._looks_of[square].add(place)
        self._known += self._narrow(self._left, set(places))

    def _narrow(self, left: List[Bits], places: Set[int]) -> List[Struck]:
        """What follows from there, begun with the looks of these places."""
        found: List[Struck] = []
        while places and all(left):
            place = min(places)
            struck = follow(left, [self._looks[place]])
            places.update(*(self._looks_of[square] for _, strikes in struck for square, _ in strikes))
            places.discard(place)
            found += struck
        return found

    def _learned(self) -> Lemma:
        """Where suppositions lead, and as little as that needs."""
        left, looks = list(self._left), []
        supposed: Dict[int, Bits] = {}
        while all(left):
            self._check()
            square, bits = self._again.pop(0) if self._again else self._choice(left)
            if left[square] & bits and left[square] & ~bits:
                supposed[square] = left[square] = bits
                looks += [struck.look for struck in self._narrow(left, set(self._looks_of[square]))]
        loosened = self._loosened(supposed, looks)
        self._again = [each for each in supposed.items() if each[0] in loosened][:-1]
        shown = self._shown(loosened, looks)
        for square in {*loosened, *(square for _, strikes in shown for square, _ in strikes)}:
            self._weights[square] += self._weight
        self._weight *= GROWTH
        return Lemma(loosened, shown)

    def _choice(self, left: Sequence[Bits]) -> Tuple[int, Bits]:
        """A square that is settled soon, or that has made much trouble, and a number that isn't the solution's."""
        square = min(self._open(left), key=lambda at: bin(left[at]).count('1') / self._weights[at])
        wrong = left[square] & ~(1 << self._solution[square] - 1 if self._solution else 0)
        return square, wrong & -wrong

    def _branch(self, supposed: Dict[int, Bits]) -> List[Bits]:
        return [bits & supposed.get(square, bits) for square, bits in enumerate(self._left)]

    def _loosened(self, supposed: Dict[int, Bits], looks: Sequence[Look]) -> Dict[int, Bits]:
        """Suppositions that lead to the same end: of fewer squares, the latest left out first, and then of more numbers."""
        whole = [(square, self._left[square]) for square in reversed(list(supposed))]
        for square, bits in [*whole, *((square, 1 << number) for square, bits in whole for number in bits_of(bits))]:
            looser = {**supposed, square: supposed[square] | bits}
            if looser != supposed and is_end(self._branch(looser), looks):
                supposed = looser
        return {square: bits for square, bits in supposed.items() if bits != self._left[square]}

    def _shown(self, supposed: Dict[int, Bits], looks: Sequence[Look]) -> List[Struck]:
        """What leads from suppositions to their end, without the looks that the later ones don't need."""
        left, trail = self._branch(supposed), []
        for look in looks:
            trail.append((look, list(left)))
            follow(left, [look])
        needed: List[Look] = []
        for look, before in reversed(trail):
            if not is_end(before, needed):
                needed.insert(0, look)
        return follow(self._branch(supposed), needed)

    def steps(self) -> Tuple[List[Step], int]:
        """Those of a certificate, and how many lemmas are among them: the first one, and those of use."""
        needed: Set[Look] = set([known for known in self._known if isinstance(known, Lemma)][:1])
        for known in reversed(self._known):
            if isinstance(known, Struck):
                needed.add(known.look)
            elif known in needed:
                needed.update(known.looks)
        lemmas = [known for known in self._known if isinstance(known, Lemma) and known in needed]
        for place, lemma in enumerate(lemma for lemma in lemmas if lemma.kind == 'kept'):
            lemma.what = place
        steps: List[Step] = []
        for known in self._known:
            if isinstance(known, Struck):
                steps += steps_of([known])
            elif known in needed:
                steps.append(known.step)
        return steps, len(lemmas)
