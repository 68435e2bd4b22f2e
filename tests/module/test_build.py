"""How the page is made: its policy names what is in it, and what would be wrong where no test of the page meets it is refused."""

import base64
import hashlib
import re
from typing import Dict, List

import pytest

from tests.harness import Room
from web_build.kept import MODULE_FILE, PAGE_FILE, read
from web_build.page import MOST_BYTES, page_of, packed_in, unpacked
from web_build.retarget import GIVEN_LAYOUT, retargeted
from web_build.scripts import Unfit, script, scripts
from web_build.sections import MAGIC, without_idle

#: A module that is exported from, and one that is refused with why: a page of it would begin, and fail later or hide a part of itself.
NUMBERS = 'export const first = 1;\nconst own = 1;\n'
REFUSED = {
    'what is not exported': ("import {own} from './numbers.js';\n", 'main.js imports own of numbers.js, which is not exported'),
    'while it runs': ("const a = import('./numbers.js');\n", 'an import while it runs'),
    'the end of a script': ("const a = '</script>';\n", 'the end of a script'),
    'a comment of HTML': ("const a = '<!--';\n", 'the start of a comment of HTML'),
}


@pytest.mark.parametrize('name', list(REFUSED))
def test_refused_script(room: Room, name: str) -> None:
    text, why = REFUSED[name]
    room.put('main.js', text.encode())
    room.put('numbers.js', NUMBERS.encode())
    with pytest.raises(Unfit, match=re.escape(why)):
        script(room.path, 'main.js')


def test_later_script(room: Room) -> None:
    """Modules that are imported while the page runs come into a second script, without those that the first one has already."""
    room.put('later.js', b"import {first} from './numbers.js';\nexport const later = () => first;\n")
    room.put('numbers.js', NUMBERS.encode())
    room.put('large.js', b"import {first} from './numbers.js';\nexport const large = first;\n")
    room.put('main.js', b"export async function go() {\n  const {large} = await import('./large.js');\n  return large;\n}\n")
    first, second = scripts(room.path, 'main.js')
    assert '  return large;' not in second and second.count('const large = first;') == 1 and 'large = first' not in first
    assert 'const {large} = (await m2.later(),m3);' in first and 'const {first}=m1;' in second and 'const first = 1;' not in second
    assert script(room.path, 'numbers.js') + scripts(room.path, 'numbers.js')[1] == script(room.path, 'numbers.js')


def test_page() -> None:
    """The page in the tree has the module of the tree, lets nothing run but its scripts, which its policy names by their sums, and leads nowhere."""
    page = read(PAGE_FILE)
    assert len(page) <= MOST_BYTES
    assert unpacked(packed_in(page)) == read(MODULE_FILE)
    assert page_of(packed_in(page), packed_in(page, 'later')) == page
    policy, later = rules_of(page.decode()), unpacked(packed_in(page, 'later')).decode()
    assert policy['script-src'] == [*map(named, [*re.findall(r'<script>(.*?)</script>', page.decode(), re.DOTALL), later]), "'wasm-unsafe-eval'"]
    assert policy['default-src'] == policy['form-action'] == policy['base-uri'] == ["'none'"]
    assert re.findall(r'(?:src|href)="(?!data:|#)([^"]*)"', page.decode()) == []


def rules_of(page: str) -> Dict[str, List[str]]:
    found = re.search(r'http-equiv="Content-Security-Policy" content="([^"]*)"', page)
    assert found
    return {rule.split()[0]: rule.split()[1:] for rule in found[1].split(';')}


def named(text: str) -> str:
    return f"'sha256-{base64.b64encode(hashlib.sha256(text.encode()).digest()).decode()}'"


#: The words that LLVM's text can't have, by why it is refused.
FOREIGN = {
    'a call of one processor': '  %a = call <16 x i8> @llvm.x86.ssse3.pshuf.b.128(<16 x i8> %b, <16 x i8> %c)',
    'assembler': '  call void asm sideeffect "nop", ""()',
    'a type or a calling convention': '  %a = fadd x86_fp80 %b, %c',
    'an address of another kind': '  %a = load ptr, ptr addrspace(270) %b',
    'memory of a thread': '@a = thread_local global i64 0',
    'a block of the stack whose size is computed': '  %a = alloca i8, i64 %n',
    'after the first block': 'define i64 @f(i64 %n) #0 {\nstart:\n  br label %next\nnext:\n  %q = alloca i64, align 8\n  ret i64 %n\n}\n',
}

HEAD = f'target datalayout = "{GIVEN_LAYOUT}"\ntarget triple = "x86_64-unknown-linux-gnu"\n'


@pytest.mark.parametrize('why', FOREIGN)
def test_foreign(why: str) -> None:
    with pytest.raises(Unfit, match=why):
        retargeted(HEAD + FOREIGN[why])


def test_other_layout() -> None:
    with pytest.raises(Unfit, match='another layout'):
        retargeted(HEAD.replace('i64:64', 'i64:32'))


def test_functions_in_a_table() -> None:
    with pytest.raises(Unfit, match='in its table'):
        without_idle(MAGIC + b'\x01\x01\x00' + b'\x09\x01\x00')
