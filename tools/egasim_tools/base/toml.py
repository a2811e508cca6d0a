"""TOML: what a file holds, and how values are written."""

import functools
import re
import tomllib

from egasim_tools.base.files import text_of
from egasim_tools.base.tool import fail

MOST_DEPTH, MOST_DOTS = 32, 2000  # of a file: tables and lists within each other; dots of keys, as [[run.faults]] has one
# What may hold dots that aren't of a key: texts, over lines or not, and comments. One without an end goes to the end.
LONG_TEXTS = r'''"""(?:\\.|[^\\])*?(?:"{3,5}|\\?\Z)|\'\'\'.*?(?:'{3,5}|\Z)'''
TEXT = re.compile(LONG_TEXTS + r'''|"(?:\\.|[^"\\\n])*"?|'[^'\n]*'?|#[^\n]*''', re.S)
LONG_SIGNS = ('"""', "'''")
BARE = re.compile(r"[A-Za-z0-9_-]+")
NOT_PLAIN = re.compile(r'["\\\x00-\x1f\x7f]')  # what stands in a text by its number


def toml_of(name):
    """What a TOML file holds."""
    return toml_in(name, text_of(name))


def toml_in(name, text):
    """What the text of a TOML file holds. Python's tomllib takes time by the square of a key's dots, and by those of a
    table for each key in it, so they are counted first; it takes numbers of any length, where TOML has 64 bits; and it makes
    LF of CR LF, so that a name in a text of several lines might be another one than the program reads."""
    dots = [line.count(".") for line in TEXT.sub("_", text).split("\n")]
    if sum(dots) > MOST_DOTS or max(dots) > MOST_DEPTH:
        fail(f"{name}: more than {MOST_DOTS} dots in keys, or {MOST_DEPTH} in a line")
    if any(match[0].startswith(LONG_SIGNS) and "\r\n" in match[0] for match in TEXT.finditer(text)):
        fail(f"{name}: a text of several lines has CR LF, which the program keeps and Python's tomllib doesn't: write it in one line")
    try:
        held = tomllib.loads(text)
    except (ValueError, RecursionError) as error:
        fail(f"{name}: not TOML: {str(error) or 'too deep'}")
    level = [held]
    for _ in range(MOST_DEPTH):
        numbers = [value for value in level if isinstance(value, int) and not -2**63 <= value < 2**63]
        if numbers:
            fail(f"{name}: not TOML: a number of more than 64 bits")
        level = [inner for value in level for inner in parts_of(value)]
    return fail(f"{name}: too deep") if level else held


def check_keys(place, table, keys):
    """Ends if this isn't a table, or has another key."""
    if not isinstance(table, dict):
        fail(f"{place} must be a table")
    for key in table:
        if key not in keys:
            fail(f"{place}: there is no key {key}; the keys are {', '.join(keys)}")


def whole_in(place, value, most, least=0):
    """A whole number of this range, or the end."""
    if type(value) is not int or not least <= value <= most:
        fail(f"{place} must be a whole number from {least} to {most}")
    return value


def parts_of(value):
    """What a value holds, if it is a list or a table."""
    return value.values() if isinstance(value, dict) else value if isinstance(value, list) else ()


def toml_text(value):
    """A text, number, truth value or list as TOML writes it. A table is written inline."""
    if type(value) is int:
        return str(value)
    if isinstance(value, bool):
        return "true" if value else "false"
    if isinstance(value, str):
        return f'"{NOT_PLAIN.sub(number_of_character, value)}"'
    if isinstance(value, list):
        return f"[{', '.join(map(toml_text, value))}]"
    if isinstance(value, dict):
        return f"{{ {', '.join([f'{key_text(key)} = {toml_text(item)}' for key, item in value.items()])} }}"
    return str(value)


@functools.cache
def key_text(key):
    return key if BARE.fullmatch(key) else toml_text(key)


def number_of_character(match):
    return f"\\u{ord(match[0]):04x}"
