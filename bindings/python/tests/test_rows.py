"""The rows of `crates/conformance` and of the four programs beside it, with offsets in code points."""

import os
import re
import unittest
from unittest import mock

import regress

CRATES = os.path.join(os.path.dirname(os.path.abspath(__file__)), "..", "..", "..", "crates")
# The programs with rows, and by which tables they are tried.
TABLES = {
    "conformance": "small", "conformance_lookaround": "small", "conformance_classes": "small", "conformance_products": "small",
    "conformance_unicode": "unicode",
}
ESCAPE = re.compile(r"\\(?:u\{([0-9A-Fa-f]+)\}|u([0-9A-Fa-f]{4})|(.))", re.S)
NAMED = {"t": "\t", "n": "\n", "r": "\r", "\\": "\\"}
PAIR = re.compile("[\ud800-\udbff][\udc00-\udfff]")


def text_of(field):
    """The text of a field."""
    def read(escape):
        return chr(int(escape[1] or escape[2], 16)) if escape[3] is None else NAMED[escape[3]]

    return ESCAPE.sub(read, field)


def points_in(text, told):
    """A list of matches, in bytes, by code points."""
    encoded = text.encode("utf-8", "surrogatepass")

    def point(number):
        return str(len(encoded[:int(number[0])].decode("utf-8", "surrogatepass")))

    return re.sub(r"(?<![^\s=.|])\d+", point, told)


def listed(found):
    return " ".join("-" if start < 0 else f"{start}..{end}" for start, end in found.regs)


def named(found):
    """The named groups of a match."""
    spans = ((name, found.span(name)) for name in found.re.groupindex)
    return " ".join(f"{name}=-" if start < 0 else f"{name}={start}..{end}" for name, (start, end) in spans)


def are_of_a_script(flags):
    letters = set(flags)
    return letters <= set("dgimsuvy") and len(letters) == len(flags) and not {"u", "v"} <= letters


class Rows(unittest.TestCase):
    def rows(self, crate):
        with open(os.path.join(CRATES, crate, "stdin"), encoding="utf-8") as lines:
            for number, line in enumerate(lines, 1):
                fields = line.rstrip("\n").split("\t")
                work, _, flags = fields[0].rpartition(":")
                if not line.startswith("#") and are_of_a_script(flags):
                    yield number, work, [flags] + fields[1:] + [""] * 3

    def told(self, work, flags, pattern, text, expected, other, start):
        """What is told for a row, and what is expected; None where the row is of other works."""
        if work == "escape":
            return regress.escape(pattern), text
        if PAIR.search(pattern + text):
            return None
        if expected.startswith("!"):
            with self.assertRaises(regress.error):
                regress.compile(pattern, flags)
            return None
        compiled = regress.compile(pattern, flags)
        if work in ("replace_as", "replace_all_as"):
            return compiled.sub(text_of(expected), text, 1 if work == "replace_as" else 0), text_of(other)
        if work == "names":
            found = compiled.search(text)
            return named(found) if found else "", points_in(text, text_of(expected))
        if work == "units" and not start and max(text, default="") < "\U00010000":
            return "|".join(map(listed, compiled.finditer(text))), other
        if work == "whole":
            found = compiled.fullmatch(text)
            return None if other else (listed(found) if found else "", points_in(text, expected))
        if work or int(other or 0) > len(text.encode("utf-8", "surrogatepass")):
            return None
        begin = int(points_in(text, other) or 0)
        return "|".join(map(listed, compiled.finditer(text, begin))), points_in(text, expected)

    def try_crate(self, crate):
        count = 0
        for number, work, (flags, pattern, text, expected, other, start, *_) in self.rows(crate):
            with self.subTest(line=number):
                told = self.told(work, flags, text_of(pattern), text_of(text), expected, other, start)
                if told is not None:
                    self.assertEqual(*told)
                count += 1
        self.assertGreater(count, 1000)

    def test_rows(self):
        for crate, name in TABLES.items():
            tables = regress._Handle()
            regress._check(regress._call("tables_" + name, regress._HandleOut)(tables))
            with mock.patch.object(regress, "_tables", lambda: tables), self.subTest(crate=crate):
                regress.purge()
                self.try_crate(crate)
        regress.purge()
