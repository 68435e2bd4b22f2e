"""The text that the kit's compiler writes for LLVM becomes one for WebAssembly with 64-bit addresses.

Both processors have addresses of 64 bits, the low byte first, and the same sizes and alignments of all that the text names: each offset in it is a number of bytes,
and each alignment is written. So the text means the same on both, but for what belongs to one processor, which is refused.

WebAssembly's stack has no page below it that nobody may touch. So each function begins with a test that traps where the stack is used up, as the functions have
that the kit itself makes for this target.
"""

from __future__ import annotations

import re
from typing import Iterable, Iterator, List, NamedTuple, Optional

from web_build.scripts import Unfit

#: The layout of data that the text is written for, and the one that it gets.
GIVEN_LAYOUT = 'e-m:e-p270:32:32-p271:32:32-p272:64:64-i64:64-i128:128-f80:128-n8:16:32:64-S128'
LAYOUT = 'e-m:e-p:64:64-p10:8:8-p20:8:8-i64:64-i128:128-n32:64-S128-ni:1:10:20'

#: The words that belong to some processors alone, or to the C library of a system, outside of quotes.
FOREIGN = {
    r'@llvm\.(aarch64|amdgcn|arm|bpf|hexagon|loongarch|mips|nvvm|ppc|r600|riscv|s390|spv|ve|wasm|x86|xcore)\.': 'a call of one processor',
    r'\bx86_\w+': 'a type or a calling convention of one processor',
    r'\basm\b': 'assembler',
    r'\baddrspace\(': 'an address of another kind',
    r'\bthread_local\b': 'memory of a thread',
    r'\b(invoke|landingpad|resume)\b': 'the unwinding of a stack',
    r'= alloca [^,\n]+, i\d+ %': 'a block of the stack whose size is computed',
}

#: The words about a processor that functions have.
PROCESSOR = re.compile(r' "(?:probe-stack|stack-probe-size|target-cpu|target-features|frame-pointer)"="[^"]*"')

#: Those that take their place.
OURS = '"no-builtin-bcmp" "no-builtin-memcmp" "no-builtin-strlen" "target-cpu"="lime1"'

#: The stack grows down to address 0, and a frame that has no place any more begins below it, at a negative address.
STACK_TEST = """
define internal void @__stack_test() alwaysinline nounwind {
start:
  %frame = call ptr @llvm.frameaddress.p0(i32 0)
  %at = ptrtoint ptr %frame to i64
  %is_low = icmp slt i64 %at, 16
  br i1 %is_low, label %low, label %ok
low:
  call void @llvm.trap()
  unreachable
ok:
  ret void
}
declare ptr @llvm.frameaddress.p0(i32 immarg)
"""


def retargeted(text: str) -> str:
    """The text for WebAssembly. Raises Unfit where something in it belongs to one processor."""
    refuse_foreign(re.sub(r'"[^"\n]*"', '""', text))
    if f'target datalayout = "{GIVEN_LAYOUT}"' not in text:
        raise Unfit('the text of LLVM is for another layout of data than is known here')
    lines = '\n'.join(with_stack_tests(map(line_for_wasm, text.split('\n'))))
    trap = '' if re.search(r'^declare .*@llvm\.trap\(\)', lines, re.MULTILINE) else 'declare void @llvm.trap()\n'
    return lines + STACK_TEST + trap


def refuse_foreign(text: str) -> None:
    for form, what in FOREIGN.items():
        found = re.search(form, text)
        if found:
            raise Unfit(f'the text of LLVM has {what}: {found[0]}')


def line_for_wasm(line: str) -> str:
    """The line with WebAssembly's words in the place of a processor's."""
    if line.startswith('target datalayout'):
        return f'target datalayout = "{LAYOUT}"'
    if line.startswith('target triple'):
        return 'target triple = "wasm64-unknown-unknown"'
    if line.startswith('attributes '):
        return attributes(line)
    if line.startswith('define ') and not line.startswith('define internal '):
        name = re.search(r'@(\w+)\(', line)
        return re.sub(r'\) ((?:local_unnamed_addr )?(?:#\d+ )?\{)$', rf') "wasm-export-name"="{name[1]}" \1', line) if name else line
    return line


def attributes(line: str) -> str:
    """The words that a group of functions has."""
    left, count = PROCESSOR.subn('', line)
    left = left.replace(' sanitize_address', '').replace('{ }', '{ nounwind }')
    return left.replace(' }', f' {OURS} }}') if count else left


def with_stack_tests(lines: Iterable[str]) -> Iterator[str]:
    """Each function with the test of the stack in its first block. The stack that the function takes there stands before the test, which then sees where
    the frame ends. Raises Unfit where something is taken later: the test would know nothing of it."""
    block: Optional[Block] = None
    for line in lines:
        is_taken = ' = alloca ' in line
        if line.startswith('define '):
            yield line
            block = Block([], [])
        elif block and not is_end(line):
            (block.taken if is_taken else block.others).append(line)
        elif is_taken:
            raise Unfit(f'the text of LLVM takes of the stack after the first block of a function: {line.strip()}')
        else:
            yield from block.lines() if block else []
            yield line
            block = None


class Block(NamedTuple):
    """The first block of a function, without its end: what is taken of the stack, and the other lines."""

    taken: List[str]
    others: List[str]

    def lines(self) -> Iterator[str]:
        """A label, if there is one, is the first of the others."""
        labels = [line for line in self.others if re.match(r'\S+:', line)]
        yield from labels
        yield from self.taken
        yield '  call void @__stack_test()'
        yield from (line for line in self.others if line not in labels)


def is_end(line: str) -> bool:
    """Whether a line is the last of a block: nothing else goes to other blocks."""
    return bool(re.match(r' +(br|switch|ret|unreachable|indirectbr)\b', line))
