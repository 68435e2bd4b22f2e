"""The stand-in for `rt` says what the kit's own says, where and with what status; and the scripts find there what they look for."""

import inspect
import re
from operator import attrgetter
from pathlib import Path
from typing import Tuple

import pytest

from bodies.kit import library_beside
from building.kit import answer, command, kit_of, knows
from gating.proofs import ALL_ANEW
from tests.harness import Ended, Room, Skip, run
from tests.scripts.place import STAND_INS

#: The questions that the scripts ask it at once. They read its output on proofs from both its streams.
ASKED = ['help', 'version']

#: The words of a kit on `rt ci` if it has no word for doing all anew, since it never takes what an earlier run has kept.
NEVER_KEPT = 'sets aside what earlier runs left, proves every crate and its tests from nothing'


@pytest.fixture
def rt() -> str:
    found = command()
    if not found:
        raise Skip('there is no rt', 'the folder bin of the kit on the path')
    return found


def form(ended: Ended) -> Tuple[int, bool, bool]:
    """The status, and which streams have something."""
    return ended.status, bool(ended.output), bool(ended.error)


@pytest.mark.parametrize('word', ASKED)
def test_stand_in(rt: str, room: Room, word: str) -> None:
    ours, real = run([str(STAND_INS / 'rt'), word], room), run([rt, word], room)
    assert form(ours) == form(real)
    assert set(re.findall(ALL_ANEW, real.said)) <= set(re.findall(ALL_ANEW, ours.said))


def test_anew(rt: str, room: Room) -> None:
    """All is proved anew in the gate, with ANEW=1: by a word that the kit's help has, or since the kit does nothing else, as its help says."""
    said = ' '.join(run([rt, 'help'], room).said.split())
    assert knows(rt, ALL_ANEW) or NEVER_KEPT in said
    assert not knows(rt, '--nothing-of-the-kind')


def test_line(rt: str) -> None:
    """The line of the kit is what the command says, and in its file."""
    assert answer(rt, 'version').strip() == kit_of(rt) == (Path(rt).resolve().parent.parent / 'KIT-ID').read_text(encoding='utf-8').strip()


@pytest.mark.parametrize('name', ['guarded', 'fits', 'Crate.below', 'Crate.is_built', 'Crate.words'])
def test_module(rt: str, name: str) -> None:
    """A stand-in for a function of the kit's module takes nothing that the kit's own doesn't take."""
    ours, real = (set(inspect.signature(attrgetter(name)(library_beside(path))).parameters) for path in (str(STAND_INS / 'rt'), rt))
    assert ours <= real
