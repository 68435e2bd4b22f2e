"""The cards of the course: a small board each, on which one step shows a number, and one sentence of what to look for.

`tools/texts --write` makes page/shared_texts.js of them, too. A test asks the program whether each hint is still of its kind.
"""

from __future__ import annotations

from typing import Dict, List, NamedTuple, Sequence


class Card(NamedTuple):
    id: str
    title: str
    #: Says where to look.
    text: str
    #: The reasons of the steps of its hint; none where it needs no step.
    kind: Sequence[str] = ()


#: Of each game in the order of the course: the rules, and then a kind of step each. One card of each game has no solution.
CARDS: Dict[str, List[Card]] = {
    'towers': [
        Card(
            '3:1/2/2/3/1/2/1/2/2/3/1/2,c2a3c',
            'The rules',
            'Towers (Skyscrapers): each row and column has 1, 2 and 3 once. A clue counts the towers seen: tall ones hide low ones.',
        ),
        Card('3:2/2/1/1/2/3/2/2/1/1/2/3', 'Clue 1', 'A clue 1 sees one tower: the nearest is the tallest.', ['bound']),
        Card('4:///////////////4,c2a4j', 'The greatest clue', "A clue of the board's size sees all towers: they rise.", ['bound']),
        Card('4:///////////3////,a2b3c2b4d', 'Too few towers', 'A tall tower near a clue hides the others: fewer are seen than it says.', ['bound']),
        Card('4://////////////3/,b3c4_1e4b', 'One square left', 'A number has one square left in a row.', ['bound']),
        Card('4://///////3/2/////,c1f3e', 'Numbers that stand', 'Count with the numbers in its row.', ['stand']),
        Card('4://2/////////////,4b3_3_4j', 'What is left', 'Empty squares count by what is left in them.', ['clue']),
        Card('3:1/1/2/2/3/1/2/1/2/2/3/1', 'A contradiction', 'Two clues want different numbers in one square: the board has no solution.', ['bound', 'bound']),
        Card('4:///////////////2,1a4c1i', 'Two cases', 'The tallest tower may stand near or far: a number that goes wrong both ways is out.', ['bound']),
    ],
    'unequal': [
        Card('3:0,0,0,1,2L,0,0UR,0,0,', 'The rules', 'Unequal (Futoshiki): each row and column has 1, 2 and 3 once. A sign opens to the greater number.'),
        Card('3:0,0,0,0,0,1,3,0,0,', 'One number left', 'All other numbers stand in its row or column.'),
        Card('3:0,3L,0,0D,0,0U,0,0,3,', 'One square left', 'A number has one square left in a row.'),
        Card('3:0,0,0,0,0R,0,0,0,1,', 'A sign', 'The lesser side of a sign never has the greatest number.', ['sign']),
        Card('3:0,0,0D,0R,0,0,0,0,1,', 'At least', 'Where the lesser side is at least 2, the greater side is at least 3.', ['sign']),
        Card('4:0,0,0,0,0,0,0,0,0,2UL,0,0,0,0,4,0,', 'A sign and a row', 'A sign keeps a number out of a square: another one has it.', ['sign']),
        Card('3:0,0,0,0,0,0,0,0R,0U,', 'Two signs', 'Two squares are each greater than a neighbour: neither is 1.', ['sign', 'sign']),
        Card('5:5,0,0,2,0,0,0,0,0,0,1,4,0,0,2,2,0L,0D,0,1,0,0,0,1,5,', 'A set', 'Two squares of a row share two numbers: they have no others.', ['set']),
        Card('4:0,0,4,0L,0,0,0L,0,0,0,0,0,0,2,0,0,', 'A contradiction', 'The lesser side has the greatest number: the board has no solution.', ['sign']),
    ],
}
