"""Edits of a crate are tried together: each function is proved from the contracts of those that it calls, so what is wrong in one shows in that one alone."""

from __future__ import annotations

import contextlib
import re
from typing import List, NamedTuple, Sequence, Set

from bodies.edits import BadEdit, Edit, Texts, all_applied, applied
from bodies.kit import Tree
from bodies.sources import Place, place_at, places_of

#: The words of the prover on a goal of which it tells values that make it false.
VALUES = 'the facts known there allow values at which this goal is false'


class Goal(NamedTuple):
    """An open goal, or an error in the code, which `is_open` tells apart: its file, its line, and what is said of it."""

    file: str
    line: int
    text: str
    is_open: bool

    @property
    def has_values(self) -> bool:
        """Whether the prover told values that make it false."""
        return VALUES in self.text

    def __str__(self) -> str:
        return f'{self.file}:{self.line}: {self.text}'[:240]


def is_proved(status: int, said: str, paths: Sequence[str]) -> bool:
    """Whether a check of these functions proved each of them and all that they need; with none named, whether it proved the whole crate."""
    if not paths:
        return status == 0 and re.search(r'^logic=proved', said, re.MULTILINE) is not None
    proved = re.findall(r'^fn (\S+): proved$', said, re.MULTILINE)
    are_all = all(any(f'::{name}'.endswith(f'::{path}') for name in proved) for path in paths)
    return status == 0 and are_all and re.search(r'^only=(\d+) proved=\1$', said, re.MULTILINE) is not None


def is_refused(status: int, said: str) -> bool:
    """Whether the check came to its end, and some function is not proved. One that stops earlier says nothing of those that it didn't come to."""
    return status == 1 and re.search(r'^(logic=not-proved|only=\d+ proved=\d+$)', said, re.MULTILINE) is not None


def has_no_such_function(status: int, said: str) -> bool:
    """Whether the prover knows none, or several, by a name that it was asked for."""
    return status == 2 and re.search(r'^rattle: error: .*: help: write (the name|one of) ', said, re.MULTILINE) is not None


def goals_in(said: str) -> List[Goal]:
    """Where a goal is open, or the code is refused before that."""
    found = re.findall(r'^(note: )?(?:\./)?(src/\S+?):(\d+):\d+: (?!warning)(.*)', said, re.MULTILINE)
    return [Goal(file, int(line), text, bool(note) and 'not proved' in text) for note, file, line, text in found]


def why(said: str) -> str:
    """The first line that tells of something wrong, an open goal before all."""
    for pattern in (r'^note: src/.*', r'^\S+:\d+:\d+: .*', r'^.*\berror\b.*', r'^rt: .*'):
        told = re.search(pattern, said, re.MULTILINE)
        if told:
            return told[0][:240]
    return said.strip().rpartition('\n')[2][:240]


class Answer(NamedTuple):
    """The outcome of a check of some edits: whether all is proved, or whether the check came to its end, why not, and the goals."""

    is_proved: bool
    is_refused: bool
    why: str
    goals: List[Goal]


class Trial:
    """The edits of one crate, tried in a tree. Of the crate the functions are checked in which edits stand, and what those need."""

    def __init__(self, tree: Tree, crate: str) -> None:
        self.tree = tree
        self.crate = crate
        self.source = tree.folder(crate)
        #: How often the whole crate had to be checked, since the prover knows a function by no name that was found for it.
        self.whole_checks = 0

    def unfit(self, edit: Edit) -> str:
        """Why an edit can't be tried, or nothing."""
        if not edit.pairs or any(not (pair.file and pair.old) for pair in edit.pairs):
            return "it has no lines 'file:', 'old:' and 'new:'"
        if all(pair.old == pair.new for pair in edit.pairs):
            return 'it changes nothing'
        try:
            places_of(edit, self.source)
        except BadEdit as error:
            return str(error)
        return ''

    def check(self, edits: Sequence[Edit]) -> Answer:
        """Checks the crate with these edits in it, as far as they reach."""
        texts = all_applied(edits, self.source)
        paths = self.paths(edits)
        said = self.tree.check(self.crate, texts, paths)
        if paths and has_no_such_function(*said):
            paths = []
            said = self.tree.check(self.crate, texts, paths)
        self.whole_checks += not paths
        return Answer(is_proved(*said, paths), is_refused(*said), why(said.text), goals_in(said.text))

    def paths(self, edits: Sequence[Edit]) -> List[str]:
        """By what the prover knows the functions in which these edits stand; none where it can't be told of one."""
        paths = {place.path for edit in edits for place in places_of(edit, self.source)}
        return [] if '' in paths else sorted(paths)

    def own(self, edit: Edit, goals: Sequence[Goal]) -> List[Goal]:
        """Those goals that stand in a function in which an edit stands."""
        places = places_of(edit, self.source)
        return [goal for goal in goals if place_at(self.source, goal.file, goal.line) in places]

    def rounds(self, edits: Sequence[Edit]) -> List[List[Edit]]:
        """The edits in as few rounds as a simple choice finds: none in another's way, and just one in a function, so that an open goal is one edit's. Those whose
        functions can be asked for are in rounds of their own."""
        nameless = [edit for edit in edits if not self.paths([edit])]
        return [*self._rounds([edit for edit in edits if edit not in nameless]), *self._rounds(nameless)]

    def _rounds(self, edits: Sequence[Edit]) -> List[List[Edit]]:
        left = list(edits)
        found: List[List[Edit]] = []
        while left:
            texts: Texts = {}
            taken: List[Edit] = []
            full: Set[Place] = set()
            for edit in left:
                with contextlib.suppress(BadEdit):
                    places = places_of(edit, self.source)
                    if not places & full:
                        texts = applied(edit, self.source, texts)
                        full |= places
                        taken.append(edit)
            found.append(taken)
            left = [edit for edit in left if edit not in taken]
        return found
