"""What all parts of bench/fuzz share: numbers with their range, tables, pieces of files, and bytes that are broken."""

import os

TOP = os.path.dirname(os.path.dirname(os.path.dirname(os.path.realpath(__file__))))
MOST = 4194304  # bytes of a file


class Number(int):
    """A number with the range that it is to keep."""

    def __new__(cls, value, low, high):
        made = int.__new__(cls, value)
        made.low, made.high = low, high
        return made


class Raw(str):
    """A value as it is to be written, whether or not it is TOML."""


class Table(list):
    """Names and values, in their order; a name may stand twice."""


class Rows(list):
    """Tables of an array of tables."""


def drawn(chance, low, high):
    """A number of a range, often one of its ends."""
    return Number(chance.choice([low, high, chance.randint(low, high), chance.randint(low, high)]), low, high)


STRANGE = ["a b.csv", "é.csv", "a\nb", "./t0.csv", "sub/t.csv", "..", ".", "a" * 200, "\u0001x", "\U0001f600", "nul\0",
           "\x1b[m\x7f\\", "\x7e\x80\x9f\xa0\u0100", "/dev/zero", "/dev/stdin", "run", "c.toml"]

VALUES = """
0 +0 -0 0x0 0xFF 0xfF 0o17 0b11 1_000 1__0 _1 1_ 01 +1 -1 +01 0x_1 0x1_ -0x1 0X1 0o8 0b2 0x 9223372036854775807
9223372036854775808 -9223372036854775808 -9223372036854775809 0xFFFFFFFFFFFFFFFF 0x8000000000000000 0x7FFFFFFFFFFFFFFF
0o777777777777777777777 0o1000000000000000000000 11111111111111111111111111111111111111111111111111111111111111111 ++1
+-1 1+1 1.0 1. .1 1e5 1E+5 1e -inf +nan inf nan 1e999 -1e999 1e308 1e309 1.7976931348623157e308 1.7976931348623159e308
1_0.0_1 1._0 1_.0 0e0 00.1 -0.0 1.0e-05 1e1_0 1.e1 1.0e 1.0e+ 1.0e1.0 Inf NaN 3.0 1e-999 6.626e-34 1.0.0 1e5e5 inff
+inf -nan true false True TRUE tru truee t f falsefalse 1979-05-27 1979-02-29 2000-02-29 1900-02-29 2004-02-30
1979-13-01 1979-00-10 1979-05-00 1979-04-31 0000-01-01 9999-12-31 1979-5-27 19790-05-27 1979-05-27T07:32:00Z
1979-05-27T07:32 1979-05-27T07:32Z 1979-05-27t07:32:00z 1979-05-27T 07:32 07:32:00 07:32:60 07:32:61 23:59:60 24:00
23:60 07:32:00. 07:32:00.9 07:32:00.999999999999999 07:32.5 7:32 07:3 07:32Z 1979-05-27T07:32:00.5+07:00
1979-05-27T07:32:00-00:00 1979-05-27T24:00:00Z 1979-05-27T07:32:00+24:00 1979-05-27T07:32:00+23:60
1979-05-27T07:32:00+7:00 1979-05-27T07:32:00+0700 1979-05-27T07:32:00ZZ 1979-05-27T07:32:60Z 1979-05-27Z 1979-05-27T07
1979-05-27T7:32 1979-05-27_07:32 07:32:00+01:00 07:32:5 1979-05-27T07:32:00,5Z [] [,] [1,] [1,,2] [,1] [1 ] ] [
[[1],[2]] [{}] {} {,} {a=1,} {a=1,,} {a=1,b=2} {a=1,a=2} {a.b=1,a.c=2} {a={},a.b=1} {a.b=1,a={}} {a.b=1,a.b=2}
{a.b.c=1,a.b.d=2} {a.b=1,a.b.c=2} {=1} {a=} {a} {"a"=1} {'a'=1} {a={b={c=1}}} [[[[]]]] [1,"a",true,{}] [[],[]] { } []
[] = . # @ ~
""".split() + [
    '""', "''", "a", "a-b", '"a', "'a", 'a"', '"a"b', '"a""b"', "'a''b'", "é", '"é"', "'é'", '"""', "'''",
    "1979-05-27 07:32:00", "1979-05-27 07:32", "1979-05-27  07:32", "1979-05-27 x", "1979-05-27 07:32:00Z",
    "1979-05-27 7",
    "[1 2]", "[1\n,\n2\n]", "[ # a\n1]", "[1 # a\n]", "{\na=1\n}", "{a\n=1}", "{a=\n1}", "{a=1 b=2}", "{#c\na=1}",
    "{a=1 #c\n}",
    "{a=1\n,\nb=2,\n}", "{ a = 1 , }", "[\r\n1\r\n]", "[\r1]", "{\r}", '"a\nb"', "'a\nb'", '"\\\n"', '"""\\\n  a"""',
    '"""\\  \n\n b"""', '"""\\ a"""', '"""\\\r\n a"""', '"""a\\"""', '"""\r\n"""', '"""\r"""', '"""a\r\nb"""',
    "'''\r\na\r\nb'''", "'''\r'''",
    "'''\n'''", "'''a\\\nb'''", '"\t"', "'\t'", '"""\t"""', '"\x00"', '"\x1f"', '"\x7f"', "'\x7f'", '"""\x00"""',
    "'''\x0b'''", '"\x80"', '"\u0085"',
    '"\ufeff"', "\ufeff1", "1\ufeff", "1 # \x7f", "1 # \x00", "1 #\t", "1 # é", "1 #\r", "1\r", "1 \r\n", "", " ",
    "1 2", '"a" "b"', "[1] [2]", "{} {}",
    '"""a""" "b"', "\n1",
]

LINES = [
    "[]", "[[]]", "[a.]", "[.a]", "[a..b]", "[a]]", "[[a]", "[ a ]", "[ [a] ]", "[[ a ]]", "[[a] ]", "[a] # x",
    "[a] x", "[a]\r", "[\na]",
    "[a\n]", "[[a]] b = 1", "= 1", "a", "a =", "a = 1 b = 2", "a = 1\rb = 2", "# \x01", "# \x7f", "#\t", "\ufeff",
    "é = 1", "a-b_c = 1",
    "1 = 1", "1.2 = 1", "-1 = 1", "+1 = 1", '"a\\nb" = 1', '"a\nb" = 1', '"""a""" = 1', "'''a''' = 1", "a\n= 1",
    "a =\n1", ".a = 1", "a. = 1", "a b = 1",
    "\x0b", "\x0c", "\u00a0", "\u2028", "\x85", "\\", "a = 1 \\", '"a = 1', "a\\ = 1", '"\\q" = 1', "a:1", "a==1",
    "a = = 1", "\r", "\r\r\n", " \r\n",
]

FIELDS = ["", " ", "0", "00", "01", "00000", "000000", "1", "-0", "+0", "-1", "0.0", "1e1", "0x1", " 1", "1 ", "1\t",
          '""', '"1"', '"1', '1"', '"1"1', '"1""', '""1',
          '" 1"', '"1\n"', '"1,2"', '"', "é", "\u0661", "\ufeff1", "\0", "65535", "65536", "99999", "100000",
          "4294967296", "#", ";", "1;1", "'1'"]

RECORD_ENDS = ["\n", "\r\n", "\r", "\n\n", "\r\r", "\n\r", " \n", ",\n", "\r\n\r\n", "\t\n", "\n#\n", '\n""\n', '"\n',
               "\x0b\n", "\x00\n", "\n \n"]

TOKENS = [token.encode() for token in [*VALUES, *LINES, *FIELDS, *RECORD_ENDS, '"', "'", '"""', "'''", "\\", "[", "]",
                                       "{", "}", ",", ".", "=", "#", "\n", "\r\n"]] + [
    b"\r", b"\xef\xbb\xbf", b"\xff", b"\xc0\x80", b"\xed\xa0\x80", b"\xf4\x90\x80\x80", b"\xc3", b"\xe2\x82", b"\x80",
    b"\x00", b"\x7f", b"\x1a", b"\xfe\xff",
    b"\xf0\x9f\x98\x80", b"\xc2\xa0", b"\x1b", b"\x08"]


def broken_bytes(chance, made, tokens):
    """The same bytes, somewhere cut, repeated, swapped, turned, or with something put in."""
    made = bytearray(made)
    for _ in range(chance.choice([1, 1, 1, 2, 4])):
        place = chance.randint(0, len(made))
        more = min(len(made), place + chance.choice([1, 1, 2, 5, 20, 100]))
        kind = chance.randint(0, 9)
        if kind == 0:
            del made[place:]
        elif kind == 1:
            del made[:place]
        elif kind == 2:
            del made[place:more]
        elif kind == 3:
            made[place:place] = made[place:more] * chance.choice([1, 1, 2, 50])
        elif kind == 4:
            other = chance.randint(0, len(made))
            made[other:other] = made[place:more]
        elif kind == 5 and made:
            made[place % len(made)] ^= 1 << chance.randint(0, 7)
        elif kind == 6 and made:
            made[place % len(made)] = chance.choice([0, 9, 10, 13, 32, 34, 39, 44, 46, 48, 61, 91, 92, 93, 127, 255,
                                                     chance.randint(0, 255)])
        elif kind == 7:
            made = bytearray(bytes(made).replace(*chance.choice([
                (b"\n", b"\r\n"), (b"\n", b"\r"), (b"\n", b""), (b" ", b"\t"), (b",", b";"), (b"=", b":"),
                (b"0", b"1"), (b'"', b"'"), (b",", b",\n")])))
        else:
            made[place:place] = chance.choice(tokens)
    return bytes(made)
