"""What a mapping of egasim measured says: from which channels of a measurement each column comes, and how."""

from fractions import Fraction
from types import SimpleNamespace

from egasim_tools.base.ranges import FULL, RAISE, SPEED, WORD
from egasim_tools.base.toml import check_keys, toml_of, whole_in
from egasim_tools.base.tool import fail
from egasim_tools.base.units import NANOSECONDS, tick_of, time_of
from egasim_tools.measurement.csv_export import DECIMALS, DELIMITERS

# The columns of what is made: the first ones have to be there, and those behind may be, in this order.
COLUMNS = {
    "trace": (("pedal", "speed", "raise"), ("reset", "brake")),
    "recording": (("pedal1", "pedal2", "plate1", "plate2", "load1", "load2", "speed1", "speed2", "raise", "check"),
                  ("brake1", "brake2")),
}
HEADERS = {"trace": (3, 4, 5), "recording": (10, 12)}  # how many columns there may be
MOST = {"pedal": FULL, "speed": SPEED, "raise": RAISE, "reset": 1, "brake": 1}  # of a trace
MOST_NUMBER = 10**18  # of what a mapping says
# What a column is made of where it wasn't measured, if the other one of its pair was: of a recording.
PAIRS = {"pedal": ", complement = 1000", "plate": ", complement = 1000", "load": "", "speed": "", "brake": ", complement = 1"}
ROUNDINGS = ("nearest", "down", "up")
TOP = ("makes", "tick", "age", "gap", "file", "time", "keys", "cut", "run")
OF_CHANNEL = ("channel", "time", "factor", "offset", "round", "age", "texts")


def mapping_of(name):
    """The mapping of a file, checked: what is made of which channels, tick, ages, and what is said of file and times."""
    held = toml_of(name)
    check_keys(name, held, TOP)
    makes = one_of(name, "makes", held.get("makes"), tuple(COLUMNS))
    mapping = SimpleNamespace(
        name=name, makes=makes, tick=tick_of(f"{name}: tick", held.get("tick")), age=age_of(name, "age", held.get("age")),
        cuts_gaps=one_of(name, "gap", held.get("gap", "hold"), ("hold", "cut")) == "cut",
        file=file_of(name, table_of(name, held, "file")), run=run_of(name, table_of(name, held, "run")))
    mapping.times = times_of(name, table_of(name, held, "time"))
    mapping.sources = sources_of(mapping, table_of(name, held, "keys"))
    cut = table_of(name, held, "cut")
    mapping.cut = cut_of(mapping, cut) if cut else None
    return mapping


def table_of(name, held, key):
    table = held.get(key, {})
    return table if isinstance(table, dict) else fail(f"{name}: {key} must be a table")


def one_of(name, place, value, values):
    return value if value in values else fail(f"{name}: {place} must be one of {', '.join(values)}")


def age_of(name, place, said):
    """Nanoseconds of an age."""
    age = time_of(said)
    return age if age is not None else fail(f'{name}: {place} must say beyond what age a value is a gap, such as "100ms"')


def number_of(name, place, value):
    """A number of the mapping, as exact as it is written; a text may be a fraction, such as 1000/4095."""
    try:
        if type(value) in (int, float) or isinstance(value, str) and len(value) < 40 and "e" not in value.lower():
            number = Fraction(str(value))
            return number if abs(number) < MOST_NUMBER else fail(f"{name}: {place} is out of range: less than 10^18, please")
    except (ValueError, ZeroDivisionError):
        pass
    return fail(f'{name}: {place} must be a number, or a text such as "1000/4095"')


def file_of(name, table):
    """How the measurement is written; None stands for what is to be found."""
    check_keys(f"{name}: file", table, ("delimiter", "decimal", "encoding", "empty"))
    empty = table.get("empty", [])
    if not isinstance(empty, list) or not all(isinstance(text, str) for text in empty):
        fail(f"{name}: file.empty must be a list of texts")
    found = {"delimiter": tuple(DELIMITERS), "decimal": tuple(DECIMALS), "encoding": ("utf-8", "utf-16", "latin-1")}
    said = {key: one_of(name, f"file.{key}", table[key], values) if key in table else None for key, values in found.items()}
    return SimpleNamespace(**said, empty=set(empty))


def times_of(name, table):
    """The column of time, its unit in nanoseconds, the times of the first and the last tick, and what becomes of times
    that fall."""
    check_keys(f"{name}: time", table, ("channel", "unit", "from", "to", "falling"))
    said = one_of(name, "time.unit", table.get("unit", "s"), tuple(NANOSECONDS))
    unit = NANOSECONDS[said]
    ends = {key: number_of(name, f"time.{key}", table[key]) * unit if key in table else None for key in ("from", "to")}
    for key, time in ends.items():
        if time is not None and (time.denominator != 1 or abs(time) >= 10**18):
            fail(f"{name}: time.{key} isn't a whole number of nanoseconds below 10^18")
    leaves = one_of(name, "time.falling", table.get("falling", "refuse"), ("refuse", "leave")) == "leave"
    return SimpleNamespace(channel=channel_of(name, "time.channel", table.get("channel")), unit=unit, said=said, leaves=leaves,
                           first=ends["from"] and int(ends["from"]), last=ends["to"] and int(ends["to"]))


def channel_of(name, place, value):
    """A channel by its name, or by the number of its column, from 1 on."""
    if isinstance(value, str) and value.strip() or type(value) is int and 1 <= value <= 100000:
        return value.strip() if isinstance(value, str) else value
    return fail(f"{name}: {place} must be the name of a channel, or the number of its column, from 1 on")


# The columns


def sources_of(mapping, table):
    """Where each column of what is made comes from, in the order of its header."""
    name, (needed, others) = mapping.name, COLUMNS[mapping.makes]
    check_keys(f"{name}: keys of a {mapping.makes}", table, needed + others)
    for key in needed:
        if key not in table:
            fail(f"{name}: keys has no {key}, which a {mapping.makes} needs; {key} = {advised(key, table)}")
    keys = [key for key in needed + others if key in table]
    if len(keys) not in HEADERS[mapping.makes] or keys != list((needed + others)[:len(keys)]):
        other = others[1] if keys[-1] == others[0] else others[0]
        advice = f"{other} = {advised(other, table)}; " if mapping.makes == "recording" else ""
        fail(f"{name}: keys has {keys[-1]} without {other}; {advice}a header is {','.join(needed + others)}")
    sources = {key: source_of(mapping, key, table[key]) for key in keys}
    for key, source in sources.items():
        if source.of is not None and (source.of not in sources or sources[source.of].of is not None):
            fail(f"{name}: keys.{key}.of must be a key that has a channel or a value")
    return sources


def advised(key, table):
    """What a column that wasn't measured may be, and what that writes."""
    if key == "check":
        return '{ of = "raise", complement = 65535 } writes the word of a raise that is read rightly'
    other = key[:-1] + ("2" if key.endswith("1") else "1")
    if key[:-1] in PAIRS and (other in table or key.endswith("2")):
        return f'{{ of = "{other}"{PAIRS[key[:-1]]} }} writes what fits to {other}'
    return "{ value = 0 } writes 0"


def source_of(mapping, key, table):
    """Where a column comes from: a channel, a value, or another column."""
    name, place = mapping.name, f"keys.{key}"
    if not isinstance(table, dict) or ("channel" in table) + ("value" in table) + ("of" in table) != 1:
        fail(f"{name}: {place} must be a table with one of channel, value and of")
    most = MOST[key] if mapping.makes == "trace" else WORD
    source = SimpleNamespace(key=key, most=most, of=table.get("of"), value=None, complement=None, channel=None, is_edge=False)
    if "value" in table:
        check_keys(f"{name}: {place}", table, ("value",))
        source.value = whole_in(f"{name}: {place}.value", table["value"], most)
    elif "of" in table:
        check_keys(f"{name}: {place}", table, ("of", "complement"))
        if "complement" in table:
            source.complement = whole_in(f"{name}: {place}.complement", table["complement"], WORD)
    else:
        check_keys(f"{name}: {place}", table, (*OF_CHANNEL, "edge") if key == "reset" else OF_CHANNEL)
        source.is_edge = truth_of(name, f"{place}.edge", table.get("edge", False))
        add_channel(mapping, place, table, source)
    return source


def truth_of(name, place, value):
    return value if type(value) is bool else fail(f"{name}: {place} must be true or false")


def add_channel(mapping, place, table, source):
    """What is said of a channel: its column of time, how its values are taken, and beyond what age they are a gap."""
    name = mapping.name
    source.channel = channel_of(name, f"{place}.channel", table["channel"])
    source.time = channel_of(name, f"{place}.time", table.get("time", mapping.times.channel))
    source.factor = number_of(name, f"{place}.factor", table.get("factor", 1))
    if not source.factor:
        fail(f"{name}: {place}.factor is 0, by which nothing of the channel stays; {{ value = N }} writes a constant")
    source.offset = number_of(name, f"{place}.offset", table.get("offset", 0))
    source.round = one_of(name, f"{place}.round", table.get("round", "nearest"), ROUNDINGS)
    source.age = age_of(name, f"{place}.age", table["age"]) if "age" in table else mapping.age
    texts = table_of(name, table, "texts")
    source.texts = {text.strip(): number_of(name, f"{place}.texts.{text}", value) for text, value in texts.items()}


def cut_of(mapping, table):
    """Where a long trace may be cut: before a tick at which this channel is at most so much, in its own unit."""
    check_keys(f"{mapping.name}: cut", table, ("channel", "time", "age", "texts", "most"))
    if "channel" not in table or "most" not in table:
        fail(f"{mapping.name}: cut must have a channel, and the most that it may be where a trace is cut")
    source = SimpleNamespace(key="cut", most=None, of=None, value=None, complement=None, is_edge=False)
    add_channel(mapping, "cut", table, source)
    source.at_most = number_of(mapping.name, "cut.most", table["most"])
    return source


def run_of(name, table):
    """What a run of the campaign has beside its name and its trace; None if no campaign is asked for."""
    check_keys(f"{name}: run", table, ("image", "engine", "slices", "sound"))
    if table and not isinstance(table.get("image"), str):
        fail(f"{name}: run.image must be the name of an image")
    is_sound = truth_of(name, "run.sound", table.get("sound", False))
    return {"is_sound": is_sound, **{key: table[key] for key in ("image", "engine", "slices") if key in table}} if table else None
