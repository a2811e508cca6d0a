"""What files are made of: calibrations, questions with their answers, faults and runs, by docs/FORMATS.md."""

from fuzzing.common import Number, Rows, Table, drawn


def axis(chance, points, most):
    return [Number(point, 0, most) for point in sorted(chance.sample(range(most + 1), points))]


def weights(chance):
    """Weights of a debouncer. Many lie at a border of what `bound` and `limits` tell: few bad bits just confirm."""
    up, down = drawn(chance, 1, chance.choice([6, 100])), drawn(chance, 0, chance.choice([4, 100]))
    limit = chance.choice([drawn(chance, 1, 10000), up * chance.randint(1, 4) + chance.randint(0, 1)])
    return [("up", Number(up, 1, 100)), ("down", Number(down, 0, 100)), ("limit", Number(limit, 1, 10000))]


# What the answers to questions are: docs/CONCEPT.md, "Questions and answers".


def value_at(points, values, x):
    if x <= points[0]:
        return values[0]
    for (low, at_low), (high, at_high) in zip(zip(points, values), zip(points[1:], values[1:])):
        if x <= high:
            return (at_low * (high - x) + at_high * (x - low)) // (high - low)
    return values[-1]


def permitted(permit, pedal, speeds, raised):
    at = [value_at(permit["pedal"], [value_at(permit["speed"], row, speed) for row in permit["table"]], pedal)
          for speed in speeds]
    return max(min(at), raised)


def answer(row, permit, threshold, kt, tolerances):
    falling = {name: max(0, 1000 - row[name][1]) for name in ("pedal", "plate")}
    seconds = [falling["pedal"], falling["plate"], row["load"][1], row["speed"][1]]
    pairs = [abs(row[name][0] - second) > most
             for name, second, most in zip(("pedal", "plate", "load", "speed"), seconds, tolerances)]
    results = [
        min(row["pedal"][0], falling["pedal"]),
        permitted(permit, row["used"], row["speed"], row["raise"] if row["raise"] + row["check"] == 65535 else 0),
        min(65535, -(-max(row["load"]) * kt // 1000)),
        int(row["estimate"] > row["allowed"] + threshold),
        sum(bit << place for place, bit in enumerate(pairs)),
    ]
    sign = row["seed"]
    for result in results:
        sign = (sign << 3 & 65535 | sign >> 13) ^ result
    return sign


def question(chance, *rules):
    row = {"seed": drawn(chance, 0, 65535)}
    for name in ("pedal", "plate", "load", "speed"):
        row[name] = [Number(chance.choice([0, 300, 500, 1000, chance.randint(0, 65535)]), 0, 65535) for _ in range(2)]
    raised = chance.choice([0, 600, 65535])
    row["raise"], row["check"] = Number(raised, 0, 65535), Number(chance.choice([65535 - raised, 0]), 0, 65535)
    for name in ("used", "estimate", "allowed"):
        row[name] = Number(chance.choice([0, 500, 1000, 1400, chance.randint(0, 65535)]), 0, 65535)
    row["answer"] = Number(answer(row, *rules), 0, 65535)
    return Table(row.items())


def wrong_answer(chance, right, others):
    """A number that mostly isn't the right answer; seldom one that no answer may be."""
    near = [right ^ 1, right ^ 32768, (right + 1) % 65536, 0, 65535, chance.randint(0, 65535), *others]
    return Number(chance.choice([-1, 65536] if chance.random() < 0.02 else near), 0, 65535)


def with_wrong_answers(chance, table):
    """The same calibration with other answers to one of its questions, to some, or to all."""
    answers = [int(dict(row)["answer"]) for row in dict(table)["question"]]
    share = chance.choice([0, 0.5, 1])
    one = chance.randrange(len(answers))
    rows = Rows(Table((name, wrong_answer(chance, value, answers[:2])
                       if name == "answer" and (place == one or chance.random() < share) else value)
                      for name, value in row)
                for place, row in enumerate(dict(table)["question"]))
    return Table((name, rows if name == "question" else value) for name, value in table)


def calibration(chance):
    pedal, speed = axis(chance, chance.choice([2, 3, 16]), 1000), axis(chance, chance.choice([2, 3, 3, 16]), 8000)
    table, row = [], [0] * len(speed)
    for _ in pedal:
        row = [chance.randint(least, min(10000, least + 900)) for least in row]
        table.append([Number(value, 0, 10000) for value in row])
    permit, threshold = {"pedal": pedal, "speed": speed, "table": table}, drawn(chance, 0, 10000)
    kt, tolerances = drawn(chance, 1, 10000), [drawn(chance, 0, 10000) for _ in range(4)]
    version = chance.randint(1, 3)
    brake = [("brake", chance.choice([True, False]))] if version >= 2 else []
    fall = [("fall", Number(drawn(chance, 0, chance.choice([1, 50, 300, 10000])), 0, 10000))] if version == 3 else []
    angle = axis(chance, chance.choice([2, 3, 16]), 1000)
    period = drawn(chance, 2, 100)
    first, send, last = sorted(chance.randint(0, period - 1) for _ in range(3))
    times = [("period", period), ("first", Number(first, 0, 99)), ("last", Number(last, 0, 99))]
    questions = [question(chance, permit, threshold, kt, tolerances) for _ in range(chance.choice([2, 2, 2, 3, 64]))]
    return Table([
        ("version", Number(version, 1, 3)),
        ("permit", Table([*permit.items(), ("threshold", threshold), *brake, *fall])),
        ("torque", Table([("kt", kt), *weights(chance)])),
        ("pairs", Table([*zip(("pedal", "plate", "load", "speed"), tolerances), *weights(chance)])),
        ("plant", Table([("slew", drawn(chance, 1, 1000)), ("fill", drawn(chance, 1, 1000)), ("angle", angle),
                         ("charge", [drawn(chance, 0, 1000) for _ in angle])])),
        ("answers", Table([*times, ("send", Number(send, 0, 99)), *weights(chance)])),
        ("question", Rows(questions)),
    ])


def words_of(chance, most):
    return [drawn(chance, 0, most) for _ in range(chance.choice([1, 2, 64]))]


def fault(chance):
    def number(name, low, high):
        return (name, drawn(chance, low, high))

    add = chance.choice([-65535, -1, 1, 65535])
    opens = [chance.choice([True, False]) for _ in range(chance.choice([1, 64]))]
    after = axis(chance, chance.choice([1, 3, 64]), 19999)
    classes = [
        ("script", number("track", 0, 9), ("values", words_of(chance, 65535))),
        ("offset", number("track", 0, 9), ("add", Number(add, -65535, 65535))),
        ("bus", number("mask", 1, 65535)),
        ("plate", number("at", 0, 1000)),
        ("skip", number("module", 0, 7)),
        ("disturb", number("module", 1, 5), number("mask", 1, 65535)),
        ("flip", number("word", 0, 31), number("mask", 1, 65535)),
        ("halt",), ("path1-closed",), ("path2-closed",),
        ("timing", number("offset", 0, 99)),
        ("wild", ("questions", words_of(chance, 65535)), ("opens", opens)),
        ("path-open", number("path", 1, 2)),
        ("lapse", ("after", after), number("every", 0, 20000)),
        ("lapse", ("after", after)),
    ]
    name, *keys = chance.choice(classes)
    onset = Number(chance.choice([0, chance.randint(0, 60), 19999]), 0, 19999)
    return Table([("class", name), ("onset", onset), *keys])


LETTERS = "abcdefghijklmnopqrstuvwxyz0123456789-"


def run_of(chance, number):
    name = chance.choice([f"r{number}", f"r{number}", f"{number}" + "z" * 31, "x" + LETTERS[:30] + f"{number}"[-1]])
    row = [drawn(chance, 0, 111) for _ in range(9)]
    slices = [("slices", [row, [Number(100, 0, 1000)] * 9][: chance.randint(1, 2)])]
    engine = chance.choice([[], [("engine", "gasoline")], [("engine", "diesel")]])
    faults = chance.choice([[], [("faults", Rows())], [("faults", Rows([fault(chance)]))],
                            [("faults", Rows([fault(chance)]))]])
    return Table([("name", name), ("trace", f"t{number}.csv"), ("image", f"i{number}.hex"),
                  *chance.choice([[], slices]), *engine, *faults])
