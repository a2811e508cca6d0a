"""Files of lines: records, measurements, answers of a partner, images and sources, good ones and broken ones."""

from fuzzing.common import FIELDS, RECORD_ENDS, TOKENS, TOP, broken_bytes, drawn

COLUMNS = ["pedal", "speed", "raise", "reset", "brake"]
MOST_OF = {"pedal": 1000, "speed": 8000, "raise": 10000, "torque": 65535, "reset": 1, "brake": 1}
EXAMPLES = {}
for example in ("idle", "full", "follow", "probe", "trapped"):
    with open(f"{TOP}/examples/level_1/{example}.hex", encoding="ascii") as file_of_example:
        EXAMPLES[example] = file_of_example.read()


def records(chance, columns):
    """Good records of these columns, as lists of fields, below their header."""
    made = [list(columns)]
    row = [0] * len(columns)
    for tick in range(chance.choice([1, 2, 5, 12, 40, 60, 71, 72])):
        for place, name in enumerate(columns):
            if chance.random() < (0.03 if name == "reset" and tick else 0.3):
                row[place] = chance.choice([0, MOST_OF[name], chance.randint(0, MOST_OF[name])])
            elif name == "reset":
                row[place] = 0
        made.append([str(value) for value in row])
    return made


def shown_records(chance, rows, strange):
    """Records as a file, in plain lines, or with all that is allowed besides."""
    ends = RECORD_ENDS[: 5 if strange else 1]
    quoted = 0.1 if strange else 0
    lines = []
    for row in rows:
        fields = [f'"{field}"' if chance.random() < quoted else field for field in row]
        lines.append(",".join(fields) + chance.choice(ends))
    made = chance.choice(["", "", "\ufeff"] if strange else [""]) + "".join(lines)
    return made.rstrip("\r\n") if strange and chance.random() < 0.3 else made


def broken_records(chance, rows):
    kind = chance.randint(0, 9)
    rows = [list(row) for row in rows]
    if kind <= 6:
        for _ in range(chance.choice([1, 1, 1, 2])):
            row = chance.choice(rows)
            place = chance.randrange(len(row) or 1)
            many = chance.randint(0, 6)
            if many == 0 and row:
                del row[place]
            elif many == 1:
                row.insert(place, chance.choice(FIELDS))
            elif many == 2 and row and row[place].isdecimal():
                row[place] = str(chance.choice([MOST_OF[name] + 1 for name in MOST_OF] + [65535]))
            elif row:
                row[place] = chance.choice(FIELDS)
        return shown_records(chance, rows, chance.random() < 0.5).encode()
    if kind == 8 and chance.random() < 0.3:
        return shown_records(chance, rows[: chance.randint(0, 1)], chance.random() < 0.5).encode()
    if kind == 7:
        lines = [",".join(row) + (chance.choice(RECORD_ENDS) if chance.random() < 0.2 else "\n") for row in rows]
        return "".join(lines).encode()
    return broken_bytes(chance, shown_records(chance, rows, chance.random() < 0.5).encode(), TOKENS)


TRACKS = ["pedal1", "pedal2", "plate1", "plate2", "load1", "load2", "speed1", "speed2", "raise", "check"]
CONTACTS = ["brake1", "brake2"]

with open(f"{TOP}/examples/measurement/measured.csv", encoding="ascii") as file_of_example:
    MEASURED = [line.split(",") for line in file_of_example.read().split("\n")[1:-1]]


def disturbed(chance, rows):
    """Rows of numbers of which one field reads more or less for some ticks."""
    place, first, ticks = chance.randrange(len(rows[0])), chance.randrange(len(rows)), chance.choice([1, 4, 5, 9, 30])
    more = chance.choice([-1, 1]) * chance.choice([1, 20, 50, 51, 100, 400, 1000, 65535])
    for row in rows[first:first + ticks]:
        row[place] = max(0, min(65535, row[place] + more))


def measurement(chance):
    """A good measurement, as lists of fields: recorded readings, of which some are disturbed, and some anything."""
    start, has_brake, far = chance.randrange(len(MEASURED)), chance.random() < 0.4, chance.choice([0, 0, 0, 0.02, 0.3])
    rows = [[int(field) for field in row] for row in MEASURED[start:start + chance.choice([1, 2, 5, 12, 40, 200])]]
    for row in rows if has_brake else []:
        row += [int(chance.random() < 0.1), int(chance.random() < 0.9)]
    for _ in range(chance.choice([0, 1, 1, 2, 4])):
        disturbed(chance, rows)
    words = [[drawn(chance, 0, 65535) if chance.random() < far else word for word in row] for row in rows]
    return [TRACKS + CONTACTS * has_brake, *([str(word) for word in row] for row in words)]


def shown_measurement(chance, rows):
    ends = chance.choice([["\n"], ["\n"], ["\r\n"], ["\n", "\r\n"]])
    made = "".join(",".join(row) + chance.choice(ends) for row in rows).encode()
    return made.rstrip(b"\r\n") if chance.random() < 0.2 else made


def loads(chance, kt, most):
    """Loads of both tracks whose estimate is at least so much, mostly no more than that needs."""
    least = min(65535, -(-most * 1000 // kt))
    first = chance.choice([least, least, chance.randint(least, 65535)])
    return [first, chance.choice([first, first, min(65535, first + chance.randint(0, 60)), 65535])]


def partner(chance, kt):
    """What a partner answers at each tick, as lists of fields. It has torque up to some tick, and then none, so that it
    is mostly lawful; its drive is that of a trace."""
    _, *rows = records(chance, COLUMNS)
    rows = [list(row) for row in rows * chance.choice([1, 1, 1, 3])]
    last = chance.choice([0, 0, 1, 12, len(rows), chance.randint(0, len(rows))])
    most = min(65535 * kt // 1000, chance.choice([1, 100, 200, 400, 401, 65535]))
    shown = [0, 40, 40, 0]
    for tick, row in enumerate(rows):
        if chance.random() < 0.3:
            torque = chance.randint(0, most)
            position = chance.choice([0, 1000, chance.randint(0, 1000)])
            shown = [position, *loads(chance, kt, chance.choice([torque, torque, most])), torque]
        has_torque = tick < last and row[3] == "0"
        row += [str(word) for word in [*shown[:3], shown[3] if has_torque else 0]]
    if chance.random() < 0.1:
        # A law is about to be broken, or is.
        row = chance.choice(rows)
        row[8] = str(min(65535, -(-min(int(row[6]), int(row[7])) * kt // 1000) + chance.choice([0, 0, 1])))
    return rows


def image(chance):
    kind = chance.choice(["idle", "full", "follow", "probe", "trapped", "noise", "empty"])
    if kind == "noise":
        count = chance.choice([1, 20, 200])
        return "".join(f"{chance.randint(0, 65535):04{chance.choice('xX')}}\n" for _ in range(count))
    return "" if kind == "empty" else EXAMPLES[kind]


IMAGE_LINES = ["", " ", "f00", "f0000", "f00g", " f000", "f000 ", "f000\r", "0xf0", "+f00", "f_00", "é00", "f000,",
               "#", "f000 # a", "\ufefff000", "\0\0\0\0",
               "F000", "fFfF", ":000", "/000", "@000", "G000", "`000"]


def broken_image(chance, made):
    kind = chance.randint(0, 4)
    lines = made.splitlines(keepends=True)
    if kind <= 1:
        lines.insert(chance.randint(0, len(lines)),
                     chance.choice(IMAGE_LINES) + chance.choice(["\n", "\n", "\r\n", ""]))
    elif kind == 2:
        more = ["f000\n"] * (chance.choice([1023, 1024, 1025]) - len(lines))
        lines = more + lines + chance.choice([[], ["x\n"], ["f000"], ["\n"]])
    elif kind == 3:
        return made.rstrip("\n").encode()
    else:
        return broken_bytes(chance, made.encode(), TOKENS)
    return "".join(lines).encode()


# The operands of each mnemonic: a register, the greatest number, or a target with how far it may be back.
FORMS = {"nop": [], "ldi": ["r", 511], "ldx": ["r", 127], "mov": ["r", "r"], "add": ["r"] * 3, "sub": ["r"] * 3,
         "and": ["r"] * 3, "or": ["r"] * 3, "xor": ["r"] * 3, "shr": ["r", "r", 15], "mul": ["r"] * 3,
         "ld": ["r", "r", 63], "st": ["r", "r", 63], "jz": ["r", (256,)], "jlt": ["r", "r", (32,)], "wait": [],
         "jr": ["r"], "word": [65535]}

LABELS = ["a", "on", "loop", "wait", "jz", "r", "x" * 15, "x" * 16]

SOURCE_LINES = [
    b" nop", b"nop ", b"nop\r", b"nop r0", b"Nop", b"halt", b"ldi r8,1", b"ldi r1, 1", b"ldi  r1,1", b"ldi r1,01",
    b"ldi r1,-1", b"ldi r1,r2", b"ldi r1", b"ldi 1,r1", b"jz r0,-0", b"jz r0,+1", b"jz r0,-01", b"jz r0,r1",
    b"jz r0,-on", b"jz r0", b"jz r0,on,", b"mov r1,r2,", b"add r1,r2", b"add r1,r2,r3,r4", b"word", b"word -1",
    b"word 0x1", b"word 65536", b"word 4294967296", b"word 18446744073709551616", b"jz r0,65536", b"jz r0,-65537",
    b"jz r0,4294967295", b"jlt r0,r0,-4294967296", b"jz r0,18446744073709551615", b"on", b"on :", b" on:", b"on: ",
    b"on::", b"on:nop", b"a1:", b"A:", b":", b"::", b"x" * 17 + b":", b"jr r0;", b"jr r0 ; a", b";",
    b"; \xff\x00: nop", b";\r", b"\t", b"\xef\xbb\xbfnop", b"\xff", b"\x00", b"r0:", b"jr  r0", b"jr r00",
]


def operand(chance, kind, labels):
    if kind == "r":
        return f"r{chance.randint(0, 7)}"
    if isinstance(kind, int):
        return str(drawn(chance, 0, kind))
    if labels and chance.random() < 0.7:
        return chance.choice(labels)
    return str(drawn(chance, -kind[0], kind[0] - 1))


def instruction(chance, labels):
    mnemonic = chance.choice(list(FORMS))
    operands = [operand(chance, kind, labels) for kind in FORMS[mnemonic]]
    return f"{mnemonic}{' ' if operands else ''}{','.join(operands)}".encode()


def source(chance):
    """The lines of a source, each of the grammar. A jump to a label may lead too far."""
    labels = chance.sample(LABELS, chance.randint(0, 4))
    lines = []
    for _ in range(chance.choice([0, 1, 3, 10, 40, 40, 300])):
        other = chance.choice([b"", b";", b"; a \xe9\xff: nop", b";nop\r"])
        lines.append(other if chance.random() < 0.1 else instruction(chance, labels))
    for label in labels:
        lines.insert(chance.randint(0, len(lines)), f"{label}:".encode())
    return lines


def other_operand(chance):
    """An instruction with a number past one end of its range, or an operand of another kind."""
    mnemonic = chance.choice([name for name in FORMS if FORMS[name]])
    operands = [operand(chance, kind, LABELS) for kind in FORMS[mnemonic]]
    place = chance.randrange(len(operands))
    kind = FORMS[mnemonic][place]
    ends = ["r8", "r"] if kind == "r" else [kind + 1, -1] if isinstance(kind, int) else [kind[0], -kind[0] - 1]
    operands[place] = str(chance.choice([*ends, *ends, "r0", "0", "on"]))
    return f"{mnemonic} {','.join(operands)}".encode()


def filled(chance, lines):
    """A source with as many instructions as there may be, one fewer or one more, and something behind them."""
    count = sum(1 for line in lines if line and line[-1:] != b":" and line[:1] != b";")
    place = chance.randint(0, len(lines))
    back = chance.choice([[], [b"nop"], [b"end:"], [b";"], [b""], [chance.choice(SOURCE_LINES)]])
    return lines[:place] + [b"nop"] * (chance.choice([1023, 1024, 1025]) - count) + lines[place:] + back


def broken_source(chance, lines):
    kind, lines = chance.randint(0, 7), list(lines)
    place = chance.randint(0, len(lines))
    if kind == 0:
        lines.insert(place, chance.choice(SOURCE_LINES))
    elif kind == 1:
        lines.insert(place, other_operand(chance))
    elif kind == 2:
        lines.insert(place, chance.choice(LABELS).encode() + b":")
        jump = chance.choice(["jz r1,", "jlt r1,r2,"]) + chance.choice(LABELS)
        lines.insert(chance.randint(0, len(lines)), jump.encode())
    elif kind == 3:
        # About as far as a jump may be.
        lines += [b"nop"] * chance.choice([30, 31, 32, 33, 254, 255, 256, 257])
        lines.insert(chance.randint(0, len(lines)), b"far:")
        lines.insert(chance.choice([0, len(lines)]), chance.choice([b"jz r0,far", b"jlt r0,r0,far"]))
    elif kind <= 5:
        lines = filled(chance, lines)
    text = b"".join(line + b"\n" for line in lines)
    if kind == 6:
        return broken_bytes(chance, text, SOURCE_LINES + TOKENS)
    return text[:-1] if kind in (5, 7) else text
