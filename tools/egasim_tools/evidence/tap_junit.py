"""Verdicts as build servers read them: lines of TAP, and JUnit's XML."""

import re
from xml.sax.saxutils import quoteattr

from egasim_tools.base.tool import as_noted

NOT_OF_XML = re.compile("[\ufffe\uffff]")


def tap(verdicts, kept=None):
    """The lines of TAP, version 13: one for each verdict. What wasn't asked for is skipped. A comment says where the calls of
    the program are kept, if they are."""
    yield from ("TAP version 13", f"1..{len(verdicts)}")
    for number, verdict in enumerate(verdicts, 1):
        skipped = " # SKIP" if verdict.is_so is None else ""
        yield f"{'not ok' if verdict.is_so is False else 'ok'} {number} - {tap_text(said(verdict))}{skipped}"
    if kept:
        yield f"# kept in {as_noted(kept)}"


def said(verdict):
    return f"{verdict.subject}: {verdict.name}: {verdict.words}"


def tap_text(text):
    """A text without what TAP would take for a directive."""
    return as_noted(text).replace("\\", "\\\\").replace("#", "\\#")


def junit(suite, verdicts, kept=None):
    """The lines of JUnit's XML: a case for each verdict, whose class is the run or the recording. A property says where the
    calls of the program are kept, if they are."""
    count = f'tests="{len(verdicts)}" failures="{sum(verdict.is_so is False for verdict in verdicts)}" errors="0"'
    skipped = sum(verdict.is_so is None for verdict in verdicts)
    yield from ('<?xml version="1.0" encoding="UTF-8"?>', "<testsuites>",
                f'<testsuite name={attribute(suite)} {count} skipped="{skipped}">')
    if kept:
        yield f'<properties><property name="kept" value={attribute(kept)}/></properties>'
    for verdict in verdicts:
        case = f"<testcase classname={attribute(verdict.subject)} name={attribute(verdict.name)}"
        words, kind = attribute(verdict.words), "failure" if verdict.is_so is False else "skipped"
        yield f"{case}/>" if verdict.is_so else f"{case}><{kind} message={words}/></testcase>"
    yield from ("</testsuite>", "</testsuites>")


def attribute(text):
    """A text in quotes. Characters that XML doesn't have are written as in notes."""
    return quoteattr(NOT_OF_XML.sub(lambda sign: "".join(f"\\x{byte:02x}" for byte in sign[0].encode()), as_noted(text)))
