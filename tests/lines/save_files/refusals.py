"""Texts that are refused: each refusal, and which comes first. Saves that are cut off or lack a record are among those of crates/trial_runs."""

from tests.lines.save_files.sample import SAMPLE, Loaded, edited, text_of

#: The place of a line of the sample, the lines in place of it, and the refusal.
EDITS = [
    (0, [b"XAVEFILE:41:Simon Tatham's Portable Puzzle Collection"], 'NotASave'),
    (0, [b"SAVEFILE:41:Simon Tatham's Portable Puzzle collection"], 'NotASave'),
    (0, [b'SAVEFILE:41'], 'NotASave'),
    (0, [b'COMMENT :1:x', SAMPLE[0]], 'NotASave'),
    (1, [b'VERSION :1:2'], 'Version'),
    (2, [b'GAME    :6:towers'], 'WrongGame'),
    (2, [b'GAME    :6:Towern'], 'WrongGame'),
    (2, [b'GAME    :6:Towers', b'GAME    :6:Towers'], 'Repeated'),
    (2, [b'GAME    :6:Towers', b'GAME    :6:Nothing'], 'Repeated'),
    (6, [b'MOVE    :6:R0,0,1', b'NSTATES :1:3'], 'EarlyState'),
    (7, [b'MOVE    :6:R0,0,1', b'STATEPOS:1:2'], 'EarlyState'),
    (6, [b'MOVE    :6:H0,0,1', b'NSTATES :1:3'], 'EarlyState'),
    (6, [b'RESTART :1:x', b'NSTATES :1:3'], 'EarlyState'),
    (8, [b'MOVE    :6:F0,0,2'], 'Unsupported'),
    (8, [b'MOVE    :6:H0,0,2'], 'Unsupported'),
    (9, [b'SOLVE   :1:H'], 'Unsupported'),
    (5, [SAMPLE[5], b'PRIVDESC:1:x'], 'Unsupported'),
    (3, [b'PARAMS  :3:3dt'], 'BadParams'),
    (4, [b'CPARAMS :2:10'], 'BadParams'),
    (5, [b'DESC    :1:3'], 'BadDesc'),
    (4, [b'CPARAMS :1:4'], 'BadDesc'),
    (6, [b'NSTATES :1:0'], 'BadCount'),
    (6, [b'NSTATES :6:100001'], 'BadCount'),
    (6, [b'NSTATES :2:03'], 'BadCount'),
    (7, [b'STATEPOS:1:0'], 'BadCount'),
    (7, [b'STATEPOS:1:4'], 'BadCount'),
    (6, [b'NSTATES :1:4'], 'Missing'),
    (6, [b'NSTATES :6:100000'], 'Missing'),
    (8, [b'MOVE    :7:R01,0,1'], 'BadState 1'),
    (8, [b'MOVE    :5:D1,-1'], 'BadState 1'),
    (8, [b'MOVE    :5:D-0,1'], 'BadState 1'),
    (9, [b'MOVE    :6:R3,0,2'], 'BadState 2'),
    (9, [b'SOLVE   :10:S132213321'], 'BadState 2'),
    # States are judged on the board so far.
    (8, [b'RESTART :13:3//////3/////'], 'BadState 1'),
    (8, [b'RESTART :1:H'], 'BadState 1'),
    (9, [b'RESTART :13:3//////2/////'], 'BadState 2'),
    (9, [b'RESTART :1:H'], 'BadState 2'),
    (9, [b'MOVE    :6:P0,0,1'], 'BadState 2'),
    (9, [b'MOVE    :4:D1,1'], 'BadState 2'),
    (9, [b'MOVE    :5:D1,-1'], 'BadState 2'),
    (9, [b'SOLVE   :5:D0,-1'], 'BadState 2'),
    (9, [b'SOLVE   :1:M'], 'BadState 2'),
    (9, [b'SOLVE   :6:R1,0,2'], 'BadState 2'),
    (9, [b'MOVE    :0:'], 'BadState 2'),
    (9, [b'MOVE    :8:R1,0,256'], 'BadState 2'),
    # Lengths that are no lengths.
    (8, [b'MOVE    :000000006:R0,0,1'], 'Malformed'),
    (8, [b'MOVE    ::R0,0,1'], 'Malformed'),
    (8, [b'MOVE    :99999999:R0,0,1'], 'Malformed'),
    (8, [b'MOVE    :+6:R0,0,1'], 'Malformed'),
    (8, [b'MOVE   :6:R0,0,1'], 'Malformed'),
    (8, [b'MOVE     :6:R0,0,1'], 'Malformed'),
    (9, [b'MOVE    :9:R1,0,2'], 'Malformed'),
    # A length one too great takes the line's end for a byte of the move, where there is one.
    (9, [b'MOVE    :7:R1,0,2'], 'BadState 2'),
]

#: Two edits at once, and the refusal that comes first.
PAIRS = [
    # A later hint comes before an earlier state that can't be played.
    ({8: [b'MOVE    :6:R9,0,1'], 9: [b'MOVE    :1:H']}, 'Unsupported'),
    # So does a cut end.
    ({8: [b'MOVE    :6:R9,0,1'], 9: [b'']}, 'Missing'),
    # A missing record comes before a description that can't be read, and that before a state.
    ({1: [b''], 5: [b'DESC    :1:3']}, 'Missing'),
    ({5: [b'DESC    :1:3'], 8: [b'MOVE    :6:R9,0,1']}, 'BadDesc'),
    # The parameters stand before the game.
    ({2: [b'PARAMS  :3:3dt'], 3: [b'GAME    :7:Unequal']}, 'BadParams'),
]

ROWS = [
    *[Loaded(f'the sample with {lines} in line {place}', edited({place: lines}), refusal=name) for place, lines, name in EDITS],
    *[Loaded(f'the sample with {edits}', edited(edits), refusal=name) for edits, name in PAIRS],
    Loaded('a length one too great at the end of the text', edited({9: [b'MOVE    :7:R1,0,2']})[:-1], refusal='Malformed'),
    Loaded('the sample in the other game', text_of(SAMPLE), refusal='WrongGame', game='unequal'),
]
