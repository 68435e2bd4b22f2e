"""In which order cases are run, and by which process: the longest first, each by the one that is free next, so that all processes end together."""

from typing import Any

from xdist.scheduler import LoadScheduling

#: The files and cases that take longest, some seconds each, and those that take long in sum; all others come after them.
LONGEST = [
    'installing/test_staged', 'installing/test_packed', 'objects/test_streams.py::test_memory', 'objects/test_desk.py::test_half_set',
    'sheet/test_printing', 'stack/', 'board/test_programs', 'board/test_lives', 'objects/test_scripts',
    'page/test_keeping', 'page/test_games', 'page/test_looks', 'page/test_faults', 'page/test_modules', 'installing/', 'scripts/', 'board/', 'second_implementation/', 'sheet/',
]


def turn(name: str) -> int:
    """The place of a case in the order."""
    return next((at for at, first in enumerate(LONGEST) if name.startswith(first)), len(LONGEST))


class InTurn(LoadScheduling):  # pylint: disable=abstract-method
    """A process has one case more than the one that it is at, since it has to know what it need not take away. By itself xdist deals out many.

    Methods that later versions of xdist leave abstract are never called for this kind of scheduling.
    """

    def _send_tests(self, node: Any, num: int) -> None:
        super()._send_tests(node, max(0, min(num, 2 - len(self.node2pending[node]))))
