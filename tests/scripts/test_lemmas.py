"""The words on lemmas and definitions that nothing uses, or of which no line above tells."""

from typing import Dict, NamedTuple, Sequence

import pytest

from tests.harness import by_name
from tests.scripts.place import Place

SPECS = 'crates/letters/specs/Letters.antt'
PROOFS = 'crates/letters/proofs/Laws.antt'
MORE = 'crates/letters/proofs/More.antt'
ANSWERS = 'crates/letters/proofs/read/Answers.antt'
CODE = 'crates/letters/src/lib.rt'
README = 'README.md'

#: A definition, with its line above; a clause that cites it; and a lemma on it, which needs none.
VOWEL = '-- whether it is a vowel\nabbrev pub is_vowel : ℕ → Bool\nis_vowel b = b == 97\n'
CLAUSE = 'ghost use Rattle.letters.specs.Letters.{is_vowel};\n\nfn vowel(b: u8) -> bool\n    ensures { result ≡ is_vowel b }\n{\n    b == 97\n}\n'
LEMMA = 'pub vowel_low : (b : ℕ) → b < 98\nvowel_low b = omega arith\n'

#: An answer that the prover asks for by its name, with a lemma that it cites.
ANSWER = 'use Rattle.letters.proofs.Laws.{vowel_low}\nuse Rattle.letters.proofs.read.Goals as goal\n\npub returns : goal.returns\nreturns c = vowel_low c.args.b\n'


class Row(NamedTuple):
    """Files of a crate, and what is told of them: `unused` or `bare`, and the name."""

    name: str
    files: Dict[str, str]
    told: Sequence[str] = ()


ROWS = [
    Row('a definition that a clause cites', {SPECS: VOWEL, CODE: CLAUSE}),
    Row('one that is only imported', {SPECS: VOWEL, CODE: CLAUSE.splitlines()[0]}, ['unused is_vowel']),
    Row('one of the same name elsewhere', {SPECS: VOWEL, CODE: CLAUSE.replace('specs.Letters', 'specs.Others')}, ['unused is_vowel']),
    Row('one that a comment names', {SPECS: VOWEL, CODE: '// is_vowel\n'}, ['unused is_vowel']),
    Row('one that a document names', {SPECS: VOWEL, README: 'See `is_vowel`.\n'}),
    Row('one that is a word of a document', {SPECS: VOWEL, README: 'See is_vowel.\n'}, ['unused is_vowel']),
    Row('no line above', {SPECS: VOWEL[VOWEL.index('abbrev') :], CODE: CLAUSE}, ['bare is_vowel']),
    Row('a heading of several', {SPECS: VOWEL.replace('-- ', '-- ---- '), CODE: CLAUSE}, ['bare is_vowel']),
    Row('an empty line between', {SPECS: VOWEL.replace('vowel\n', 'vowel\n\n', 1), CODE: CLAUSE}, ['bare is_vowel']),
    Row('a line above two', {SPECS: f'{VOWEL}abbrev pub is_other : ℕ → Bool\nis_other b = not (is_vowel b)\n', CODE: CLAUSE.replace('is_vowel', 'is_other')}),
    Row('an answer, and the lemma that it cites', {PROOFS: LEMMA, ANSWERS: ANSWER}),
    Row('a lemma that cites itself', {PROOFS: LEMMA.replace('omega arith', 'vowel_low b')}, ['unused vowel_low']),
    Row('lemmas that cite one another', {PROOFS: f'{LEMMA}\nlower : (b : ℕ) → b < 98\nlower b = vowel_low b\n'}, ['unused vowel_low', 'unused lower']),
    Row('a lemma that two files use', {PROOFS: LEMMA, ANSWERS: ANSWER, MORE: ANSWER.replace('returns', 'init')}, ['bare vowel_low']),
    Row('one with a line above', {PROOFS: f'-- vowels are low\n{LEMMA}', ANSWERS: ANSWER, MORE: ANSWER.replace('returns', 'init')}),
    Row('a lemma that a search is told of', {PROOFS: LEMMA, CODE: '#[tactic(auto, using(crate::proofs::Laws::vowel_low))]\n'}),
    Row('one of a set that it is told of', {PROOFS: f'{LEMMA}\n-- for it\npub ruleset laws = (vowel_low, refl)\n', CODE: '#[tactic(auto, using(crate::proofs::Laws::laws))]\n'}),
    Row('lemmas below parameters', {PROOFS: 'module _ (b : ℕ) where\n  lone : b < 98\n  lone = omega arith\n'}, ['unused lone']),
]

KINDS = {'nothing uses': 'unused', 'no line above': 'bare'}


@pytest.mark.parametrize('row', ROWS, ids=by_name)
def test_lemmas(place: Place, row: Row) -> None:
    place.put('crates.txt', b'letters:\n', 0o644)
    for path in (SPECS, PROOFS, MORE, ANSWERS, CODE, README):
        place.put(path, row.files.get(path, '').encode(), 0o644)
    ended = place.run(['tools/lemmas'])
    lines = ended.output.decode().splitlines()
    told = [f'{KINDS[line.split(": ")[1]]} {line.split(": ")[2]}' for line in lines[:-2]]
    assert told == list(row.told), ended.error
    assert ended.status == int(bool(row.told))
    assert lines[-1].endswith(f' passed, {len(row.told)} failed, 0 skipped')
