"""Puts modules of JavaScript together to one script: each becomes a function that is called once, those that it imports first.

A module keeps to a few forms, so that no reader of JavaScript is needed here:

    import {a, b} from './name.js';                       at its head, one statement each; the checker lies at '../certificate/verify.mjs'
    export function .. | export async function .. | export class .. | export const NAME = ..      at the start of a line
    await import('./name.js')                             anywhere: those modules come into a second script, which the first one unpacks

Anything else that imports or exports is refused. Lines that are wholly comment and the blanks before code are left out of the script.
"""

from __future__ import annotations

import os
import re
from typing import Dict, List, NamedTuple, Sequence, Tuple

IMPORT = re.compile(r'import \{([\w\s,]+)\} from \'(?:\./([\w-]+\.js)|(\.\./certificate/verify\.mjs))\';\n')
EXPORT = re.compile(r'^export (?=(?:async function|function\*?|class|const) (\w+))', re.MULTILINE)
LATER = re.compile(r"await import\('\./([\w-]+\.js)'\)")
COMMENT = re.compile(r'^[ \t]*(?://[^\n]*|/\*(?:(?!\*/).)*\*/[ \t]*)\n', re.MULTILINE | re.DOTALL)

#: From this line on a module is for node, and no part of the script.
NODE_ALONE = '\n// For node alone.\n'

#: The module whose function `later` unpacks the second script.
UNPACKS = 'later.js'

HEAD = "'use strict';\n"

#: The words that are in no module once its imports and exports are taken away, and why.
REFUSED = {
    r'^import\b': 'an import that is not as `import {a, b} from \'./name.js\';` at the head',
    r'^export\b': 'an export that is no function, class or const',
    r'\bimport\(': 'an import while it runs that is not as `await import(\'./name.js\')`',
    r'\bimport\.meta\b': 'import.meta',
    r'</script': 'the end of a script',
    r'<!--': 'the start of a comment of HTML',
    r'^await\b': 'an await outside of functions',
}


class Unfit(Exception):
    """A page can't be made of what is there. The text says why."""


class Module(NamedTuple):
    """A module, without what is said of other modules."""

    imports: Sequence[Tuple[str, str]]
    exports: Sequence[str]
    body: str


def script(folder: str, first: str) -> str:
    """The modules that the first one stands on, and it, as one script. Raises Unfit."""
    return scripts(folder, first)[0]


def scripts(folder: str, first: str) -> Tuple[str, str]:
    """The same, and what else the modules that are imported while it runs stand on, as a second script; nothing where there are none. Raises Unfit."""
    modules: Dict[str, Module] = {}
    add(folder, first, modules, [])
    wanted = [name for module in modules.values() for name in LATER.findall(module.body)]
    if wanted:
        add(folder, UNPACKS, modules, [])
    count = len(modules)
    for name in wanted:
        add(folder, name, modules, [])
    numbers = {name: number for number, name in enumerate(modules)}
    parts = [function_of(module, numbers[name], numbers) for name, module in modules.items()]
    return HEAD + ''.join(parts[:count]), HEAD + ''.join(parts[count:]) if wanted else ''


def add(folder: str, name: str, modules: Dict[str, Module], above: List[str]) -> None:
    """Adds a module after those that it imports."""
    if name in above:
        raise Unfit(f'{name} imports itself, by way of {" and ".join(above[above.index(name) + 1:] or [name])}')
    if name in modules:
        return
    with open(os.path.join(folder, name), encoding='utf-8') as file:
        module = read(name, file.read())
    for other, _ in module.imports:
        add(folder, other, modules, [*above, name])
    lacking = [f'{word} of {other}' for other, word in module.imports if word not in modules[other].exports]
    if lacking:
        raise Unfit(f'{name} imports {lacking[0]}, which is not exported')
    modules[name] = module


def read(name: str, text: str) -> Module:
    """Takes a module apart."""
    body = COMMENT.sub('', f'{text.partition(NODE_ALONE)[0]}\n')
    imports: List[Tuple[str, str]] = []
    while True:
        found = IMPORT.match(body.lstrip('\n'))
        if not found:
            break
        words = [word.strip() for word in found[1].split(',') if word.strip()]
        imports += [(found[2] or found[3], word) for word in words]
        body = body.lstrip('\n')[found.end():]
    exports = EXPORT.findall(body)
    body = EXPORT.sub('', body)
    for form, why in REFUSED.items():
        plain = LATER.sub('', body)
        wrong = re.search(form, plain, re.MULTILINE)
        if wrong:
            line = plain[wrong.start():].partition('\n')[0]
            raise Unfit(f'{name}: {why}: {line.strip()[:80]}')
    return Module(imports, exports, shorter(body))


def shorter(text: str) -> str:
    """The lines without those that are comment or empty, and without the blanks before them."""
    lines = COMMENT.sub('', f'{text}\n').split('\n')
    return ''.join(f'{line.strip()}\n' for line in lines if line.strip())


def function_of(module: Module, number: int, numbers: Dict[str, int]) -> str:
    """The function of a module, called once. Its exports are there under its number."""
    taken: Dict[str, List[str]] = {}
    for other, word in module.imports:
        taken.setdefault(other, []).append(word)
    heads = [f'const {{{",".join(words)}}}=m{numbers[other]};\n' for other, words in taken.items()]
    body = LATER.sub(lambda found: f'(await m{numbers[UNPACKS]}.later(),m{numbers[found[1]]})', module.body)
    return f'const m{number}=(()=>{{\n{"".join(heads)}{body}return {{{",".join(module.exports)}}};\n}})();\n'
