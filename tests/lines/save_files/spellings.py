"""Texts that load: other spellings, other orders, and what is passed over."""

from tests.lines.save_files.sample import SAMPLE, Loaded, edited, text_of

#: The sample with other lines in place of one of it, which load as the sample: the place, and the lines.
AS_THE_SAMPLE = [
    (8, [b'MOVE    :00000006:R0,0,1']),
    (5, [b'DESC    :15:3//////3/////,i']),
    (5, [SAMPLE[5], b'COMMENT :5:hello', b' GAME   :1:x', b'GAME\t   :1:x', b'        :1:x']),
    (9, [SAMPLE[9], b'garbage']),
    (9, [SAMPLE[9], b'PRIVDESC:1:x']),
    (9, [SAMPLE[9], b'MOVE    :1:H']),
    (9, [SAMPLE[9], b'GAME    :7:Unequal']),
    (2, [b'', b'\r', SAMPLE[2]]),
    (2, [b'COMMENT :4:a:\r', SAMPLE[2]]),
]

#: The parameters after the description, and after both counts, which stand the other way round.
ORDERS = [
    [0, 1, 2, 3, 5, 4, 6, 7, 8, 9],
    [0, 1, 2, 3, 7, 6, 4, 5, 8, 9],
]

LINE_ENDS = [b'', b'\r', b'\r\n', b'\n\n\r']

#: The last move of the sample in another form, and the record that is written for it.
FORMS = [
    (b'MOVE    :10:S123231312', b'SOLVE   :10:S123231312'),
    (b'SOLVE   :10:S123231312', b'SOLVE   :10:S123231312'),
    (b'RESTART :15:3//////3/////,i', b'RESTART :13:3//////3/////'),
    (b'MOVE    :5:D0,-1', b'MOVE    :5:D0,-1'),
]

POSITIONS = [b'STATEPOS:1:3', b'STATEPOS:1:1']

#: A save of another program, with bytes that are kept, and a comment ahead of its description.
FOREIGN = [
    b"SAVEFILE:41:Simon Tatham's Portable Puzzle Collection",
    b'VERSION :1:1',
    b'GAME    :6:Towers',
    b'PARAMS  :3:3de',
    b'CPARAMS :3:3de',
    b'SEED    :15:123456789012345',
    b'DESC    :13:3//////3/////',
    b'AUXINFO :8:0011aabb',
    b'NSTATES :1:1',
    b'STATEPOS:1:1',
]

#: Each byte there is, in a record that is kept; and records without a byte, or with an LF alone.
ANY_BYTES = (
    text_of(SAMPLE[:5])
    + b'SEED    :0:\nDESC    :13:3//////3/////\nAUXINFO :256:'
    + bytes(range(256))
    + b'\nUI      :1:\n\nTIME    :0:\nNSTATES :1:1\nSTATEPOS:1:1\n'
)

TWO_STATES = {6: [b'NSTATES :1:2']}

ROWS = [
    *[Loaded(f'the sample with {lines} in line {place}', edited({place: lines}), text_of(SAMPLE)) for place, lines in AS_THE_SAMPLE],
    *[Loaded(f'the lines {order}', text_of(SAMPLE[place] for place in order), text_of(SAMPLE)) for order in ORDERS],
    *[Loaded(f'lines that end with {end!r}', text_of(SAMPLE, end), text_of(SAMPLE)) for end in LINE_ENDS],
    *[Loaded(f'a move by {line!r}', edited({9: [line]}), edited({9: [written]})) for line, written in FORMS],
    Loaded('a done mark at first', edited({8: [b'MOVE    :5:D0,-1']}), edited({8: [b'MOVE    :5:D0,-1']})),
    Loaded('fewer states than there are moves', edited(TWO_STATES), edited({**TWO_STATES, 9: []})),
    *[Loaded(f'the position {line!r}', edited({7: [line]}), edited({7: [line]})) for line in POSITIONS],
    Loaded('kept bytes, and a comment', text_of([*FOREIGN[:6], b'COMMENT :5:hello', *FOREIGN[6:]], b'\r\n'), text_of(FOREIGN)),
    # Reading stops at the later count.
    Loaded('a description after the counts', text_of([*FOREIGN[:6], *FOREIGN[7:], FOREIGN[6]], b'\r\n'), refusal='Missing'),
    Loaded('any bytes are kept', ANY_BYTES, ANY_BYTES),
]
