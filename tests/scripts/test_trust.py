"""A list has the parts of a function's contract, and a word that nothing declares is a failure.

That the lists of the promises lack nothing is shown by their lines in docs/PROMISES.md, which the gate counts again (tests/texts).
"""

from typing import NamedTuple

import pytest

from tests.harness import by_name
from tests.scripts.place import Place

CODE = 'crates/letters/src/lib.rt'
SPECS = 'crates/letters/specs/Letters.antt'

#: A definition, and a function whose contract cites it.
VOWEL = '-- whether it is a vowel\nabbrev pub is_vowel : ℕ → Bool\nis_vowel b = b == 97\n'
USES = 'use Rattle.std.specs.Prelude.{ℕ, Bool, ◌==◌}\n\n'
CITES = 'ghost use Rattle.std.specs.Prelude.{◌≡◌};\nghost use Rattle.letters.specs.Letters.{is_vowel};\n\n'
HEAD = '/// Whether it is one.\npub fn vowel(b: u8) -> bool\n'
BODY = '{\n    b == 97\n}\n'
CONTRACT = f'{CITES}{HEAD}    ensures {{ result ≡ is_vowel b }}\n{BODY}'


class Row(NamedTuple):
    """The code and the definitions of a crate, the function that is asked for, and what is said in place of its list."""

    name: str
    code: str
    specs: str = USES + VOWEL
    fault: str = ''
    function: str = 'letters::vowel'


NOTHING_SAYS = 'and nothing says what that is'

ROWS = [
    Row('a definition and its contract', CONTRACT),
    Row("one that isn't there", CONTRACT, USES, f'{CODE}:5: vowel has is_vowel of Rattle.letters.specs.Letters, which has no such name'),
    Row('a word that nothing imports', CONTRACT, VOWEL, f'{SPECS}:1: is_vowel has Bool, {NOTHING_SAYS}'),
    Row('a misspelled one', CONTRACT, (USES + VOWEL).replace('b == 97', 'is_wovel b'), f'{SPECS}:3: is_vowel has is_wovel, {NOTHING_SAYS}'),
    Row('a type that no file has', CONTRACT.replace('b: u8', 'b: Letter'), fault=f'{CODE}:5: vowel has Letter, {NOTHING_SAYS}'),
    Row('no such function', CONTRACT, fault='no function is letters::other', function='letters::other'),
]


@pytest.mark.parametrize('row', ROWS, ids=by_name)
def test_lists(place: Place, row: Row) -> None:
    """A list has the contract and the definition, with its line above, and no body."""
    place.put('crates.txt', b'letters:\n', 0o644)
    place.put(CODE, row.code.encode(), 0o644)
    place.put(SPECS, row.specs.encode(), 0o644)
    ended = place.run(['tools/trust', row.function])
    listed = ended.output.decode()
    assert (ended.status, ended.error.decode().rstrip('\n')) == (int(bool(row.fault)), row.fault)
    assert [text in listed for text in ('-- whether it is a vowel', 'ensures { result ≡ is_vowel b }')] == [not row.fault] * 2
    assert '    b == 97' not in listed
