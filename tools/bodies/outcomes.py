"""The outcomes of a crate's wrong bodies and twins, those of earlier runs that are kept among them."""

from __future__ import annotations

from enum import Enum
from typing import Dict, Iterable, List, NamedTuple, Optional, Sequence

from bodies.edits import Edit
from bodies.kept import Kept
from bodies.trial import Answer, Trial


class Kind(Enum):
    """Where a wrong body was refused, the strongest first; or that it was not."""

    VALUES = 'at an open goal with values that make it false'
    GOAL = 'at an open goal'
    ELSEWHERE = 'elsewhere'
    NOT = 'NOT refused'


#: Where a wrong body has to be refused.
GOOD = (Kind.VALUES, Kind.GOAL)


class Verdict(NamedTuple):
    """The outcome of a wrong body: where it was refused, and what was said."""

    kind: Kind
    said: str

    @property
    def is_good(self) -> bool:
        return self.kind in GOOD

    def __str__(self) -> str:
        return f'{self.kind.value}: {self.said}'


def verdicts(trial: Trial, bodies: Sequence[Edit]) -> Dict[str, Verdict]:
    """The outcome of each, all in one check. One that this check leaves in doubt is tried again alone."""
    answer = trial.check(bodies)
    found = {body.name: verdict(trial, body, answer) for body in bodies}
    for body in bodies if len(bodies) > 1 else ():
        if not found[body.name].is_good:
            found[body.name] = verdict(trial, body, trial.check([body]))
    return found


def verdict(trial: Trial, body: Edit, answer: Answer) -> Verdict:
    """The verdict of a check on a wrong body: whether a goal is open in the function that it makes wrong, the one with values before all."""
    if answer.is_proved:
        return Verdict(Kind.NOT, 'what it stands in is proved with it')
    if not answer.is_refused:
        return Verdict(Kind.NOT, f'the check stopped before its end: {answer.why}')
    goals = [goal for goal in trial.own(body, answer.goals) if goal.is_open]
    for kind, some in ((Kind.VALUES, [goal for goal in goals if goal.has_values]), (Kind.GOAL, goals)):
        if some:
            return Verdict(kind, str(some[0]))
    return Verdict(Kind.ELSEWHERE, answer.why)


def refused_twins(trial: Trial, twins: Sequence[Edit]) -> Dict[str, str]:
    """The twins that aren't proved, each with what the prover said of it. Where they aren't all together, each is tried alone."""
    answer = trial.check(twins)
    if answer.is_proved:
        return {}
    if len(twins) == 1:
        return {twins[0].name: answer.why}
    alone = {name: why for twin in twins for name, why in refused_twins(trial, [twin]).items()}
    return alone or {twin.name: f'each of these twins is proved, but not all together: {answer.why}' for twin in twins}


class Outcome(NamedTuple):
    """The outcome of an edit: why it has failed, or nothing; of a wrong body its verdict, where it came to one; and whether an earlier run has found it."""

    name: str
    fault: str
    verdict: Optional[Verdict] = None
    is_kept: bool = False


def of_kept(crate: str, kept: Kept, twin_edits: Iterable[Edit], bodies: Iterable[Edit]) -> List[Outcome]:
    """The outcomes of these in earlier runs."""
    found = [Outcome(name_of_twin(edit), '', None, True) for edit in twin_edits if kept.find(kept.key(crate, 'twin', edit)) == ['proved']]
    judged = ((edit.name, as_verdict(kept.find(kept.key(crate, 'wrong', edit)))) for edit in bodies)
    return found + [Outcome(name, '', verdict, True) for name, verdict in judged if verdict]


def of_twins(trial: Trial, kept: Kept, edits: Iterable[Edit]) -> List[Outcome]:
    """The twins of a crate: each has to be proved."""
    found = {edit: trial.unfit(edit) for edit in edits}
    for together in trial.rounds([edit for edit, fault in found.items() if not fault]):
        refused = refused_twins(trial, together)
        for edit in together:
            found[edit] = refused.get(edit.name, '')
            if not found[edit]:
                kept.keep(kept.key(trial.crate, 'twin', edit), ['proved'])
    return [Outcome(name_of_twin(edit), fault) for edit, fault in found.items()]


def of_bodies(trial: Trial, kept: Kept, edits: Iterable[Edit]) -> List[Outcome]:
    """The wrong bodies of a crate: each has to be refused at an open goal of what it makes wrong."""
    faults = {edit: trial.unfit(edit) for edit in edits}
    outcomes = [Outcome(edit.name, fault) for edit, fault in faults.items() if fault]
    for together in trial.rounds([edit for edit, fault in faults.items() if not fault]):
        found = verdicts(trial, together)
        for edit in together:
            verdict = found[edit.name]
            outcomes.append(Outcome(edit.name, '' if verdict.is_good else str(verdict), verdict))
            if verdict.is_good:
                kept.keep(kept.key(trial.crate, 'wrong', edit), [verdict.kind.name, verdict.said])
    return outcomes


def name_of_twin(edit: Edit) -> str:
    return f'{edit.name}, the twin'


def as_verdict(words: List[str]) -> Optional[Verdict]:
    """A verdict that was kept; only good ones are."""
    if len(words) == 2 and words[0] in [kind.name for kind in GOOD]:
        return Verdict(Kind[words[0]], words[1])
    return None
