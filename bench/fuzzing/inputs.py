"""The inputs of bench/fuzz: the words of a command, with its files."""

import random
import re

from fuzzing.common import MOST, TOKENS, TOP, Rows, Table, broken_bytes
from fuzzing.meanings import calibration, run_of, with_wrong_answers, wrong_answer
from fuzzing.toml_files import broken_toml, toml
from fuzzing.line_files import (
    COLUMNS, TRACKS, broken_image, broken_records, broken_source, image, measurement, partner, records,
    shown_measurement, shown_records, source)


# A line of a measurement, and one of a partner's answers.
READ, ANSWERED = b"0,1000,0,1000,40,40,800,800,0,65535\n", b"0,800,0,0,0,0,40,40,0\n"


def much(chance):
    """4 MiB of one thing, or about that."""
    unit = chance.choice([
        b"a", b"0", b"[", b"]", b"{a=", b"a.", b'"', b"'", b"\\", b"#", b"\n", b"\r", b"\r\n", b",", b" ", b"=",
        b"\xff", b"\0", b"f000\n", b"nop\n", b";\n", b"a:\n", b"0,800,0,401\n", READ, ANSWERED, b"0,800,0\n",
        b"[[run]]\n", b"[a]\n", b"x=1\n", b"\xef\xbb\xbf", b"[[[", b'"a",', b'""', b"[1],", b"{},"])
    front = chance.choice([
        b"", b"x = ", b"x = [", b'x = "', b"x = '", b"# ", b'x = """', b"x = '''", b"pedal,speed,raise,torque\n",
        b"pedal,speed,raise\n", b'"', b"version = 1\n", b"[", ",".join(TRACKS).encode() + b"\n",
        b"[[", b"x.", b'"x', b"x = {", b"x = 0x", b"x = 1.", b"x = 07:32:00.",
        b";", b"a:\n", b"word ", b"jz r0,-", b"nop\n"])
    size = chance.choice([MOST, MOST, MOST + 1, MOST - 1, MOST // 2])
    made = (front + unit * (size // len(unit) + 1))[:size]
    back = chance.choice([b"", b"", b'"\n', b"]\n", b"}", b"'", b"\n", b" = 1\n"])
    return made[: size - len(back)] + back


def plain_run(name, trace):
    return f'[[run]]\nname = "{name}"\ntrace = "{trace}"\nimage = "i.hex"\n'


def large(chance):
    """The words and the files of an input that has as much of something as it may have, or one more."""
    count, bad = chance.choice([0, 0, 0, 1, 1, -1]), chance.choice(["", "", "x\n", "1001,800,0\n", ",,,\n"])
    files = {"i.hex": b"f000\nd1fe\n", "t.csv": b"pedal,speed,raise\n0,800,0\n"}
    kind = chance.randint(0, 7)
    if kind == 7:
        files[GIVEN] = ANSWERED * (20000 + count) + bad.encode()
        return ["couple", "c.toml", "a"], {**files, "c.toml": plain_run("a", "t.csv").encode()}
    if kind == 6:
        # More ticks than 16 bits count.
        rows = READ * (65535 + count) + bad.encode()
        return [chance.choice(MEASURING)], {GIVEN: ",".join(TRACKS).encode() + b"\n" + rows}
    if kind == 0:
        ends = chance.choice(["\n", "\r\n"])
        rows = [f"{chance.randint(0, 1000)},800,0,{chance.randint(0, 65535)}{ends}"] * (20000 + count)
        rows.insert(chance.choice([0, 19999, 20000, chance.randrange(20000)]), bad)
        return ["check", "in.csv"], {"in.csv": f"pedal,speed,raise,torque{ends}{''.join(rows)}".encode()}
    tells = chance.choice(["run", "table", "margins"])
    if kind == 1:
        runs = [plain_run(f"r{number}", "t.csv") for number in range(1000 + count)]
        runs.insert(chance.randint(0, 1000),
                    chance.choice(["", "", "", "[[run]]\n", plain_run("r0", "t.csv"), "x = 1\n"]))
        return [tells, "c.toml"], {**files, "c.toml": "".join(runs).encode()}
    if kind == 2:
        files["i.hex"] = b"f000\n" * (1024 + count) + bad.encode()
        return ["record", "c.toml", "a"], {**files, "c.toml": plain_run("a", "t.csv").encode()}
    if kind == 3:
        # 14 faults at 50 onsets: 999,600 ticks, or 1,000,300.
        files["t.csv"] = b"pedal,speed,raise\n" + b"1000,800,0\n" * (1428 + count)
        return ["sweep", "c.toml", "a", "29"], {**files, "c.toml": plain_run("a", "t.csv").encode()}
    if kind == 4:
        text = "nop\n" * (1024 + count) + ";\n" * chance.choice([0, 1000000]) + bad
        return ["asm", "s.asm"], {"s.asm": text.encode()}
    # A million ticks in all, or one more.
    runs = [plain_run(f"r{number}", "long.csv") for number in range(50)]
    runs.insert(chance.choice([0, 49, 50]), plain_run("one", chance.choice(["t.csv", "no.csv"])) if count else "")
    files["long.csv"] = b"pedal,speed,raise\n" + b"0,800,0\n" * 20000
    return [tells, "c.toml"], {**files, "c.toml": "".join(runs).encode()}


# The commands that read standard input, and the file that is given to them there.
MEASURING = ["replay", "signals"]

COUPLING = "couple"
GIVEN = "m.csv"

# The commands that read files: how often each is made beside the others, and the kinds of files of which one is mostly
# broken, each as often as it stands there.
OF_CAMPAIGN = ["campaign", "campaign", "campaign", "trace", "image"]
COMMANDS = {
    "check": (2, ["check"]), "bound": (1, []), "limits": (2, []), "coverage": (1, []), "answers": (2, []), "run": (3, OF_CAMPAIGN),
    "table": (2, OF_CAMPAIGN), "margins": (1, OF_CAMPAIGN), "record": (1, OF_CAMPAIGN), "sweep": (1, OF_CAMPAIGN),
    "asm": (2, ["source"]), "dis": (1, ["image"]), **{name: (1, ["measurement"]) for name in MEASURING},
    COUPLING: (2, ["campaign", "image", "trace", "trace", *["answers"] * 4]),
}

with open(f"{TOP}/examples/calibration/reference.toml", "rb") as file_of_example:
    REFERENCE = file_of_example.read()

ANSWER = re.compile(rb"answer = (\d+)")


def table_file(chance, table, is_broken):
    return broken_toml(chance, table) if is_broken else toml(chance, table).encode()


def calibration_file(chance, is_broken, is_wrong):
    """A calibration, whose answers may be wrong, and which may be broken besides."""
    if chance.random() < 0.2:
        made = REFERENCE
        if is_wrong:
            made = ANSWER.sub(lambda match: b"answer = %d" % wrong_answer(chance, int(match[1]), [int(match[1])]), made)
        return broken_bytes(chance, made, TOKENS) if is_broken else made
    table = calibration(chance)
    return table_file(chance, with_wrong_answers(chance, table) if is_wrong else table, is_broken)


def record_file(chance, columns, is_broken):
    rows = records(chance, columns)
    return broken_records(chance, rows) if is_broken else shown_records(chance, rows, chance.random() < 0.3).encode()


def image_file(chance, is_broken):
    made = image(chance)
    return broken_image(chance, made) if is_broken else made.encode()


def source_file(chance, is_broken):
    lines = source(chance)
    return broken_source(chance, lines) if is_broken else b"".join(line + b"\n" for line in lines)


def measured_file(chance, is_broken):
    """A measurement, of which mostly the lines below the header are broken."""
    header, *rows = measurement(chance)
    if is_broken and chance.random() < 0.7:
        return shown_measurement(chance, [header]).rstrip() + b"\n" + broken_records(chance, rows)
    return broken_records(chance, [header, *rows]) if is_broken else shown_measurement(chance, [header, *rows])


KT = re.compile(rb"^\s*kt\s*=\s*(\d{1,5})\s*$", re.M)


def answered_file(chance, is_broken, cal):
    """What a partner answers, by the `kt` of a calibration, where that is written plainly."""
    kt = KT.search(cal)
    rows = partner(chance, min(10000, max(1, int(kt[1]) if kt else 2500)))
    if is_broken and chance.random() < 0.5:
        return shown_measurement(chance, rows[:-1]) + broken_records(chance, rows[-1:])
    return broken_records(chance, rows) if is_broken else shown_measurement(chance, rows)


def campaign_files(chance, kinds):
    """A campaign's files by their names, of which those of these kinds are broken, and a run's name."""
    runs = [run_of(chance, number) for number in range(chance.choice([1, 1, 1, 2, 3]))]
    files = {"c.toml": table_file(chance, Table([("run", Rows(runs))]), "campaign" in kinds)}
    for number, _ in enumerate(runs):
        columns = COLUMNS[: chance.choice([3, 3, 4, 5])]
        files[f"t{number}.csv"] = record_file(chance, columns, "trace" in kinds)
        files[f"i{number}.hex"] = image_file(chance, "image" in kinds)
    return files, chance.choice(runs)[0][1]


# How far apart the onsets of a sweep are, and what no such number is.
STEPS = ["1", "1", "2", "7", "20", "71", "72", "00020", "20000"]

NO_STEPS = ["0", "00000", "20001", "000020", "-1", "+1", "1.0", " 1", "1 ", "1,", "a", "\u0661", "99999", "4294967297"]


def made_input(seed, count):
    """The words of the input of this number, and its files."""
    chance = random.Random(f"{seed} {count}")
    if chance.random() < 0.005:
        seeds = [0, 1, 2**32 - 1, 2**32, chance.randrange(2**32), chance.randrange(2**32), chance.randrange(2**32)]
        return [b"soak", str(chance.choice(seeds)).encode(), chance.choice([b"1", b"2", b"001", b"0", b"501"])], {}
    if chance.random() < 0.0006:
        words, files = large(chance)
        return [word.encode() for word in words], files
    command = chance.choice([name for name, (times, _) in COMMANDS.items() for _ in range(times)])
    takes, kinds = COMMANDS[command][1], set()
    of_calibration = command in ("bound", "limits", "coverage", "answers")
    with_calibration = of_calibration or command not in ("asm", "dis") and chance.random() < (
        0.5 if command in MEASURING else 0.3 if command == COUPLING else 0.1)
    takes = takes + ["calibration"] * with_calibration
    for _ in range(chance.choice([0] * (8 if command in ("limits", "coverage", "answers", COUPLING) else 1) + [1] * 8 + [2])):
        kinds.add(chance.choice(takes))
    files, words = {}, [command]
    if with_calibration:
        is_wrong = chance.random() < (0.7 if command == "answers" else 0.1)
        files["my.toml"] = calibration_file(chance, "calibration" in kinds, is_wrong)
        words += ["my.toml"] if command == "answers" else ["--cal", "my.toml"]
    if command in ("check", "asm", "dis"):
        name, made = {
            "check": ("in.csv", lambda: record_file(chance, [*COLUMNS[:3], "torque"], "check" in kinds)),
            "asm": ("s.asm", lambda: source_file(chance, "source" in kinds)),
            "dis": ("i.hex", lambda: image_file(chance, "image" in kinds)),
        }[command]
        files[name] = made()
        words.append(name)
    elif command in MEASURING:
        files[GIVEN] = measured_file(chance, "measurement" in kinds)
    elif not of_calibration:
        more, name = campaign_files(chance, kinds)
        files.update(more)
        words += ["c.toml"] + [name] * (command in ("record", "sweep", COUPLING))
    if command == COUPLING:
        files[GIVEN] = answered_file(chance, "answers" in kinds, files.get("my.toml", b""))
    if command == "sweep":
        words.append(chance.choice(STEPS if chance.random() < 0.9 else NO_STEPS))
    if chance.random() < 0.0004:
        files[chance.choice(list(files))] = much(chance)
    if chance.random() < 0.02:
        words = other_words(chance, words)
    if chance.random() < 0.01:
        del files[chance.choice(list(files))]
    return [word.encode() if isinstance(word, str) else word for word in words], files


def other_words(chance, words):
    words = list(words)
    place = chance.randrange(len(words))
    words[place:place + chance.randint(0, 2)] = chance.sample(
        ["", "-", "--cal", "my.toml", "in.csv", "c.toml", "s.asm", "i.hex", *COMMANDS, "r0", "soak", "1", b"\xff", "é"],
        chance.randint(0, 2))
    return words
