"""How TOML is written, in all ways that it has, and how it is broken."""

from fuzzing.common import LINES, STRANGE, TOKENS, VALUES, Number, Raw, Rows, Table, broken_bytes

ESCAPES = {"\b": "\\b", "\t": "\\t", "\n": "\\n", "\f": "\\f", "\r": "\\r", "\x1b": "\\e", '"': '\\"', "\\": "\\\\"}


def escaped(chance, letter):
    code = ord(letter)
    forms = [f"\\U{code:08x}"]
    if letter in ESCAPES:
        forms.append(ESCAPES[letter])
    elif code >= 32 and code != 127:
        forms += [letter] * 9
    if code < 256:
        forms.append(f"\\x{code:02X}")
    if code < 65536 and not 0xD800 <= code < 0xE000:
        forms.append(f"\\u{code:04x}")
    return chance.choice(forms)


def is_plain(value):
    """Whether a text may stand in apostrophes."""
    return "'" not in value and all(c >= " " and c != "\x7f" for c in value)


def text(chance, value):
    """A text in quotes of one of four kinds."""
    kind = chance.randint(0, 5)
    plain = is_plain(value)
    if kind == 0 and plain:
        return f"'{value}'"
    if kind == 1 and plain:
        return f"'''{chance.choice(['', chr(10)])}{value}'''"
    inside = "".join(escaped(chance, letter) for letter in value)
    if kind == 2:
        broken = chance.choice(["", "\\\n  ", "\\ \t\n\n"])
        place = chance.choice([0, len(inside)])
        return f'"""{chance.choice(["", chr(10)])}{inside[:place]}{broken}{inside[place:]}"""'
    return f'"{inside}"'


def number(chance, value):
    if chance.random() < 0.9:
        return str(int(value))
    forms = [f"{value:_}", f"+{value}" if value >= 0 else str(int(value))]
    if value >= 0:
        forms += [f"0x{value:x}", f"0x{value:X}", f"0o{value:o}", f"0b{value:b}", f"0x00{value:x}"]
    return chance.choice(forms)


def key(chance, name):
    bare = name and all(c.isascii() and (c.isalnum() or c in "_-") for c in name)
    if bare and chance.random() < 0.9:
        return name
    if is_plain(name) and chance.random() < 0.5:
        return f"'{name}'"
    return '"' + "".join(escaped(chance, letter) for letter in name) + '"'


def gap(chance, lines=False):
    if chance.random() < 0.95:
        return ""
    return chance.choice([" ", "\t", "  "] + (["\n", " # a\n", "\r\n"] if lines else []))


def inline(chance, value):
    """A value that is written in its line, or in lines of its own that a list or an inline table goes on in."""
    if isinstance(value, Raw):
        return str(value)
    if isinstance(value, bool):
        return "true" if value else "false"
    if isinstance(value, int):
        return number(chance, value)
    if isinstance(value, str):
        return text(chance, value)
    if isinstance(value, Table):
        entries = [f"{gap(chance, True)}{key(chance, name)}{gap(chance)}={gap(chance)}{inline(chance, part)}"
                   for name, part in value]
        opening, closing = "{", "}"
    else:
        entries = [gap(chance, True) + inline(chance, part) for part in value]
        opening, closing = "[", "]"
    last = chance.choice(["", "", "", ","]) if entries else ""
    return opening + ", ".join(entries) + gap(chance, True) + last + gap(chance, True) + closing


def end(chance):
    return chance.choice(["\n"] * 30 + ["\r\n", " \n", " # é\n", "\n\n", "\t#\n"])


def entry(chance, name, value):
    return f"{gap(chance)}{name}{gap(chance) or ' '}={gap(chance) or ' '}{inline(chance, value)}{end(chance)}"


def heading(chance, name, double):
    inside = gap(chance) + name + gap(chance)
    return (f"[[{inside}]]" if double else f"[{inside}]") + end(chance)


def are_tables(value):
    """Whether this may be written as an array of tables."""
    return isinstance(value, Rows) and len(value) > 0 and all(isinstance(part, Table) for part in value)


def below(chance, prefix, table):
    """The lines of a table below its heading, and the tables in it after them."""
    lines, later = [], []
    for name, value in table:
        path = f"{prefix}{key(chance, name)}"
        if are_tables(value) and chance.random() < 0.8:
            for part in value:
                later.append(heading(chance, path, True))
                later += below(chance, path + ".", part)
        elif isinstance(value, Table) and chance.random() < 0.7:
            later.append(heading(chance, path, False))
            later += below(chance, path + ".", value)
        elif isinstance(value, Table) and value and chance.random() < 0.5:
            lines += [entry(chance, f"{key(chance, name)}.{key(chance, part)}", inner) for part, inner in value]
        else:
            lines.append(entry(chance, key(chance, name), value))
    return lines + later


def toml(chance, table):
    lines = below(chance, "", table)
    return "".join(lines)


# What may stand in quotes, or mayn't.
PIECES = [
    r"\b", r"\t", r"\n", r"\f", r"\r", r"\e", r"\q", r"\\", r"\"", r"\'", r"\/", r"\0", r"\a", r"\v", r"\E", r"\x41",
    r"\xe9", r"\x00", r"\x7f", r"\xZ1", r"\x4",
    r"\X41", r"\u0041", r"\u00e9", r"\u0000", r"\ud800", r"\udfff", r"\uD7FF", r"\uE000", r"\u004", r"\u+041",
    r"\U0001F600", r"\U00110000", r"\U0010FFFF",
    r"\U0000041", r"\UFFFFFFFF", "\\\n", "\\ \t\n  \n", "\\ a", "\\\r\n ", "\\\r", "\n", "\r\n", "\r", "\t", " ", "a",
    "b", "é", "\U0001f600", "\x00", "\x08", "\x0b", "\x1f",
    "\x7f", "\u0080", "\ufeff", "\u2028", "#", "=", "]", "}", ",", '"', "'", '""', "''", "\\",
]


def quoted(chance):
    """A text in quotes of any count, or what looks like one."""
    quote = chance.choice(['"', "'"])
    counts = chance.choice([(1, 1), (1, 1), (3, 3), (3, 3), (3, chance.randint(0, 7)),
                            (chance.randint(0, 7), chance.randint(0, 7))])
    inside = "".join(chance.choice(PIECES) for _ in range(chance.choice([0, 1, 1, 2, 3])))
    return quote * counts[0] + inside + quote * counts[1]


def any_value(chance):
    """A value as TOML writes it, or as it doesn't."""
    return quoted(chance) if chance.random() < 0.3 else chance.choice(VALUES)


NAMES = ["a", "b", "c", "permit", "run", "question", '"a"', "'b'", '""', "permit.a", "a.b", "a.b.c", "a . b", 'a."b"',
         "run.a", "a.b.c.d"]


def soup(chance):
    """Headings and keys of a few names, in any order: what may follow what is decided by the rules of tables."""
    lines = []
    for _ in range(chance.randint(1, 6)):
        name = chance.choice(NAMES)
        lines.append(chance.choice([
            f"[{name}]", f"[{name}]", f"[[{name}]]", f"{name} = 1", f"{name} = {{}}", f"{name} = []",
            f"{name} = [{{}}]",
            f"{name} = {{ {chance.choice(NAMES)} = 1 }}",
            f"{name} = {{ {chance.choice(NAMES)} = 1, {chance.choice(NAMES)} = 2 }}",
        ]))
    return "\n".join(lines) + "\n"


def deep(chance):
    """A line with something that is nested, or named, about as deep as is allowed."""
    depth = chance.choice([2, 10, 78, 79, 80, 81, 82, 83, 100, 300])
    few = chance.choice([0, 1, 40, depth])
    return chance.choice([
        "x = " + "[" * depth + "]" * depth, "x = " + "[" * depth + "1" + "]" * depth,
        "x = " + "{a=" * depth + "1" + "}" * depth,
        "x = " + "[{a=" * (depth // 2) + "1" + "}]" * (depth // 2), "x = " + "[" * depth, "x = " + "{a=" * depth,
        ".".join("a" * depth) + " = 1", "[" + ".".join("a" * depth) + "]", "[[" + ".".join("a" * depth) + "]]",
        "x = {" + ".".join("a" * depth) + " = 1}",
        "[" + ".".join("a" * depth) + "]\n" + ".".join("b" * few) + "x = " + "[" * few + "]" * few,
    ]) + "\n"


def edge(chance, value):
    """A number about the ends of its range, or of what numbers there are."""
    ends = [value.low - 1, value.low, value.high, value.high + 1] if isinstance(value, Number) else [0, 1]
    return chance.choice([*ends, *ends, *ends, -1, 65535, 65536, 2**31, 2**32, 2**63 - 1, 2**63, -2**63, -2**63 - 1,
                          2**64])


def other_value(chance, value):
    kind = chance.randint(0, 9)
    if isinstance(value, int) and not isinstance(value, bool) and kind < 6:
        return edge(chance, value)
    if isinstance(value, str) and not isinstance(value, Raw) and kind < 5:
        if kind == 0:
            return Raw(quoted(chance))
        return chance.choice([*STRANGE, value[:-1], value + "x", value.upper(), "-" + value, "a" * 32, "a" * 33,
                              "a" * 201, "é" * 100, "é" * 101, "-", ""])
    if isinstance(value, list) and kind < 6:
        return other_list(chance, value)
    if kind == 6:
        return chance.choice([[value], [[value]], Table([("a", value)]), Rows([Table([("a", value)])])])
    return Raw(any_value(chance))


def other_list(chance, value):
    made = type(value)(value)
    place = chance.randrange(len(made) + 1)
    kind = chance.randint(0, 6)
    if kind == 0 and made:
        del made[place % len(made)]
    elif kind == 1 and made:
        made.insert(place, made[place % len(made)])
    elif kind == 2 and made and not isinstance(value, Table):
        made[:] = made * chance.choice([2, 3, 9, 33, 64, 65, 70][: 7 if len(made) < 10 else 2])
    elif kind == 3:
        made.reverse()
    elif kind == 4 and len(made) > 1:
        made[place % len(made)], made[place - 1] = made[place - 1], made[place % len(made)]
    elif kind == 5:
        made = type(value)()
    elif not isinstance(value, Table):
        made.insert(place, chance.choice([Raw(any_value(chance)), Number(1, 0, 1), Table(), [], True, "a"]))
    return made


def other_table(chance, table):
    """The same table with something about its names that is wrong, or in another order."""
    made = Table(table)
    place = chance.randrange(len(made) + 1)
    kind = chance.randint(0, 7)
    if kind <= 1 and made:
        del made[place % len(made)]
    elif kind == 2 and made:
        made.insert(place, made[place % len(made)])
    elif kind == 3 and made:
        name, value = made[place % len(made)]
        made[place % len(made)] = (chance.choice([name.upper(), name + "s", name[:-1], "", " " + name, "é"]), value)
    elif kind == 4:
        made.insert(place, (chance.choice(["x", "brake", "unknown", "", "run", "faults", "every", "engine"]),
                            Raw(any_value(chance))))
    elif kind == 5:
        chance.shuffle(made)
    else:
        return other_list(chance, table)
    return made


def broken_tree(chance, value):
    """The same tree with one thing in it changed."""
    if isinstance(value, Table) and value and chance.random() < 0.9:
        made = Table(value)
        # The last has most in it: the questions of a calibration, the fault of a run.
        place = len(made) - 1 if chance.random() < 0.2 else chance.randrange(len(made))
        name, part = made[place]
        made[place] = (name, broken_tree(chance, part))
        return made
    if isinstance(value, Table) and chance.random() < 0.9:
        return other_table(chance, value)
    if isinstance(value, list) and value and not isinstance(value, Table) and chance.random() < 0.9:
        made = type(value)(value)
        place = chance.randrange(len(made))
        made[place] = broken_tree(chance, made[place])
        return made
    return other_value(chance, value)


def broken_toml(chance, table):
    """A document that has something that no good one has, as bytes."""
    kind = chance.randint(0, 11)
    if kind <= 6:
        for _ in range(chance.choice([1, 1, 1, 2, 3])):
            changed = broken_tree(chance, table)
            table = changed if isinstance(changed, Table) else table
        return toml(chance, table).encode("utf-8", "surrogatepass")
    made = toml(chance, table)
    if kind <= 9:
        line = chance.choice([
            lambda: f"x = {any_value(chance)}\n", lambda: chance.choice(LINES) + "\n", lambda: soup(chance),
            lambda: deep(chance)])()
        lines = made.splitlines(keepends=True)
        place = chance.choice([0, len(lines), len(lines), chance.randint(0, len(lines))])
        return "".join([*lines[:place], line, *lines[place:]]).encode()
    return broken_bytes(chance, made.encode(), TOKENS)
