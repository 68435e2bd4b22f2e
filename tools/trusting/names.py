"""The words of a text: which it binds itself, which it has from elsewhere, and what its imports mean."""

from __future__ import annotations

import re
from typing import Dict, Iterable, List, Set, Tuple

#: Where a name comes from: the words of a path, as `Rattle.latin_board.specs.Squares`, and the name there.
Source = Tuple[str, str]

NAME = r"[^\W\dλ_][\w']*"

#: The words of a text, of which one after a point is a field or a member, and one after colons is found in what stands before them.
WORD = re.compile(rf"(?<![\w'.:]){NAME}|\.{NAME}")

#: An import of names, and one of a whole module, in a definition's file (`use`) or beside code (`ghost use`).
USE = re.compile(r'^\s*(?:ghost |unfoldable )?(?:pub )?use ([\w.]+)\.\{(.*?)\}', re.MULTILINE | re.DOTALL)
USE_WHOLE = re.compile(r'^\s*(?:ghost |pub )?use ([A-Z][\w.]+)(?: as (\w+))?;?$', re.MULTILINE)
PASSED_ON = re.compile(r'^\s*(?:unfoldable )?pub use ([\w.]+)\.\{(.*?)\}', re.MULTILINE | re.DOTALL)

#: The words of the language of definitions, and those of Rust with its types.
OF_DEFINITIONS = set('infixl infixr infix abbrev pub record unfoldable data where Type if then else let in do Unit tt'.split())
OF_CODE = set(
    'ghost requires ensures final fn struct enum const impl trait for mut dyn extern as self Self result type use crate static let '
    'bool char str u8 u16 u32 u64 usize i8 i16 i32 i64 isize Result Ok Err Option Some None Vec String Box Drop Copy Clone Default Debug '
    'super where Print Eprint AllocGlobal Files File RandomSource'.split()
)

#: Where a text binds words: parameters with a type, those of a function, fields and constructors, values of fields, names for values.
BINDERS = [
    rf'[({{]((?:{NAME}\s+)*{NAME})\s+:\s',
    rf'λ((?:[\s(,)]*(?:{NAME}|_))+)\)*\s*\.',
    rf'^\s*(?:pub )?((?:{NAME}\s+)*{NAME}) :\s',
    rf'[{{;]\s*({NAME})\s*=[^=]',
    rf'\blet ((?:[(,\s]*{NAME})+)',
    rf'\b({NAME}) ←',
]

#: The left side of an equation: the name that it declares, or an operator, and the values that it has there.
EQUATION = re.compile(rf'^(?:(?:abbrev|pub|unfoldable) )*((?:\(|{NAME})(?:[^=:\n]|==|>>=)*?) =(?:\s|$)', re.MULTILINE)

#: Other names that code binds: parameters, clauses, members of an `enum` or a `struct`.
CODE_BINDERS = [rf'\b({NAME}):(?!:)', rf'\b(?:requires|ensures|ghost|fn|struct|enum|const) ({NAME})\b', rf'^ +({NAME})(?:\(.*\)| \{{.*\}})?(?:,| \{{)$']


class Unknown(LookupError):
    """A word that is used, and that nothing declares."""


def plain(text: str) -> str:
    """A text without its comments, attributes and quoted words."""
    lines = re.sub(r'^ *(?:--|//|#!?\[).*$', '', text, flags=re.MULTILINE)
    return re.sub(r'(--|//).*', '', re.sub(r'b?"(?:[^"\\]|\\.)*"', '', lines))


def words(text: str) -> Set[str]:
    """The words of a text; a field's with the point before it."""
    return set(WORD.findall(plain(text)))


def operators(text: str, names: Iterable[str]) -> List[str]:
    """Which of the named operators a text uses. The text after a step in `do` is one."""
    shown = plain(text)
    used = shown + ' >>= ' * bool(re.search(r'\bdo$', shown, re.MULTILINE))
    return [name for name in names if name.startswith('◌') and name.endswith('◌') and f' {name.strip("◌")} ' in used]


def strange(text: str, is_code: bool) -> Set[str]:
    """The words of a text that it neither declares nor binds. Code binds each single capital letter: the type that stands for any."""
    shown = plain(text)
    bound = OF_DEFINITIONS | OF_CODE if is_code else set(OF_DEFINITIONS)
    for binder in BINDERS + (CODE_BINDERS if is_code else []):
        for names in re.findall(binder, shown, re.MULTILINE):
            bound.update(re.findall(NAME, names))
    for left in EQUATION.findall(shown):
        bound.update(re.findall(NAME, left))
    return {word for word in words(text) if not word.startswith('.') and word not in bound and not (is_code and re.fullmatch('[A-Z]', word))}


def imports(text: str) -> Dict[str, Source]:
    """The meaning of each name that a text imports."""
    return _named(USE.findall(text))


def passed_on(text: str) -> Dict[str, Source]:
    """The meaning of each name that a text imports for others."""
    return _named(PASSED_ON.findall(text))


def _named(uses: List[Tuple[str, str]]) -> Dict[str, Source]:
    found: Dict[str, Source] = {}
    for path, names in uses:
        for name in names.split(','):
            there, _, here = name.strip().partition(' as ')
            found[here or there] = (path, there)
    return found


def modules(text: str) -> Dict[str, str]:
    """The modules that a text imports whole, by the names that they have there."""
    return {here or path.rpartition('.')[2]: path for path, here in USE_WHOLE.findall(text)}
