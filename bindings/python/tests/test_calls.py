"""Each function, in the manner of `re`."""

import itertools
import re
import unittest

import regress


class Searching(unittest.TestCase):
    def test_search_finds_the_first_match(self):
        found = regress.search(r"(?<year>\d{4})-(\d\d)", "on 2025-06-01")
        self.assertEqual(found.group(), "2025-06")
        self.assertEqual(found["year"], "2025")
        self.assertEqual(found[2], "06")
        self.assertEqual(found.group(1, "year", 2), ("2025", "2025", "06"))
        self.assertEqual(found.groups(), ("2025", "06"))
        self.assertEqual(found.groupdict(), {"year": "2025"})
        self.assertEqual((found.span(), found.start("year"), found.end(2)), ((3, 10), 3, 10))
        self.assertEqual(found.regs, ((3, 10), (3, 7), (8, 10)))
        self.assertEqual((found.string, found.pos, found.endpos), ("on 2025-06-01", 0, 13))
        self.assertIs(found.re, regress.compile(r"(?<year>\d{4})-(\d\d)"))
        self.assertIsNone(regress.search("x", "abc"))

    def test_match_begins_at_its_place(self):
        pattern = regress.compile("b+")
        self.assertIsNone(pattern.match("abb"))
        self.assertEqual(pattern.match("abb", 1).span(), (1, 3))
        self.assertEqual(pattern.match("abb", 1, 2).span(), (1, 2))

    def test_what_lies_before_is_seen(self):
        self.assertIsNone(regress.compile("^b").search("ab", 1))
        self.assertEqual(regress.compile("(?<=a)b").search("ab", 1).span(), (1, 2))
        self.assertIsNone(regress.compile("a(?=b)").search("ab", 0, 1))
        self.assertEqual(regress.compile("a$").search("ab", 0, 1).span(), (0, 1))

    def test_places_are_clamped(self):
        pattern = regress.compile("")
        self.assertEqual(pattern.search("abc", 10).span(), (3, 3))
        self.assertEqual(pattern.search("abc", -5).span(), (0, 0))
        self.assertEqual(regress.compile("$").search("abc", 0, -1).span(), (0, 0))
        self.assertEqual(regress.compile("$").search("", 0).span(), (0, 0))

    def test_nothing_is_found_behind_the_end(self):
        """As `re` says of its `endpos`; its own `match` finds an empty match there."""
        for text in ("abc", "aéb", "a\ud83db", "a😀\ud83d"):
            pattern = regress.compile("")
            self.assertIsNone(pattern.search(text, 2, 1))
            self.assertIsNone(pattern.match(text, 2, 1))
            self.assertIsNone(pattern.fullmatch(text, 2, 1))
            self.assertIsNone(pattern.search(text, 10, 2))
            self.assertEqual(list(pattern.finditer(text, 2, 1)), [])
            self.assertEqual(pattern.findall(text, 2, 1), [])

    def test_fullmatch_takes_another_way(self):
        self.assertEqual(regress.fullmatch("a|ab", "ab").span(), (0, 2))
        self.assertEqual(regress.fullmatch("(a|ab)(c|bcd)?", "abcd").groups(), ("a", "bcd"))
        self.assertIsNone(regress.fullmatch("a", "ab"))
        self.assertIsNone(regress.fullmatch("^a$", "a\nb", "m"))

    def test_fullmatch_of_a_part(self):
        pattern = regress.compile("(a|ab)(c|bcd)?", "m")
        self.assertEqual(pattern.fullmatch("xabcdx", 1, 5).regs, ((1, 5), (1, 2), (2, 5)))
        self.assertEqual(pattern.fullmatch("éabcd", 1).regs, ((1, 5), (1, 2), (2, 5)))
        self.assertIsNone(pattern.fullmatch("xabcd\n", 1))
        self.assertEqual(regress.compile("(?<=x)a$").fullmatch("xab", 1, 2).span(), (1, 2))
        self.assertIsNone(regress.compile("^a").fullmatch("xa", 1))
        self.assertEqual(regress.compile("^a", "m").fullmatch("x\na", 2).span(), (2, 3))
        self.assertEqual(regress.compile("(?<n>a)|\\k<n>b").fullmatch("xb", 1).groupdict(), {"n": None})
        self.assertEqual(regress.compile("\ud83d|\ud83db").fullmatch("x\ud83db", 1).span(), (1, 3))
        self.assertEqual(regress.compile("(" * 255 + ")" * 255).fullmatch("x", 1).span(), (1, 1))

    def test_fullmatch_of_each_part(self):
        """In each part of texts of each form, as `re` answers where both have the same language."""
        for source in ("a|ab|abb?", "(a|b)*?", "(?<=a)b+|é?", "(a)|(b)|", "a*$", "[^b]+(?!b)"):
            ours, theirs = regress.compile(source), re.compile(source)
            for text in ("abbab", "éabéb", "b😀ab", "a\ud83dbb", "a😀\udc00b"):
                places = itertools.product(range(-1, len(text) + 2), repeat=2)
                for pos, endpos in places:
                    found, other = ours.fullmatch(text, pos, endpos), theirs.fullmatch(text, pos, endpos)
                    told, expected = [each and (each.regs, each.pos, each.endpos) for each in (found, other)]
                    self.assertEqual(told, expected, (source, text, pos, endpos))

    def test_finditer_goes_as_match_all(self):
        spans = [found.span() for found in regress.finditer("a|", "ba")]
        self.assertEqual(spans, [(0, 0), (1, 2), (2, 2)])
        many = [found.span() for found in regress.finditer("a", "a" * 1000)]
        self.assertEqual(many, [(place, place + 1) for place in range(1000)])
        # From each letter a way goes to the end, so that it has to be remembered that these fail.
        self.assertEqual(sum(1 for found in regress.finditer("a.*b|a", "a" * 30_000)), 30_000)
        one, other = regress.finditer("a", "a" * 100), regress.finditer("a", "ba" * 100)
        self.assertEqual([(x.start(), y.start()) for x, y in zip(one, other)], [(k, 2 * k + 1) for k in range(100)])
        self.assertEqual([found.span() for found in regress.compile("a").finditer("aaaa", 1, 3)], [(1, 2), (2, 3)])

    def test_groups_that_took_no_part(self):
        found = regress.search("(a)|(b)", "b")
        self.assertEqual((found.groups(), found.groups("-"), found[1]), ((None, "b"), ("-", "b"), None))
        self.assertEqual((found.span(1), found.start(1), found.end(1)), ((-1, -1), -1, -1))

    def test_a_name_of_two_groups(self):
        pattern = regress.compile(r"(?<y>\d{4})-\d\d|\d\d/(?<y>\d{4})")
        self.assertEqual(dict(pattern.groupindex), {"y": 1})
        self.assertEqual(pattern.search("2025-06")["y"], "2025")
        self.assertEqual(pattern.search("06/2026")["y"], "2026")
        self.assertEqual(pattern.search("06/2026").groupdict(), {"y": "2026"})
        self.assertEqual(pattern.sub("$<y>", "06/2026 2025-01"), "2026 2025")

    def test_groups_that_are_not_there(self):
        found = regress.search("(a)", "a")
        for group in (2, -1, "a"):
            with self.assertRaises(IndexError):
                found.group(group)


class Making(unittest.TestCase):
    def test_findall(self):
        self.assertEqual(regress.findall("a.", "abac"), ["ab", "ac"])
        self.assertEqual(regress.findall("a(.)?", "aba"), ["b", ""])
        self.assertEqual(regress.findall("(a)(b)?", "aba"), [("a", "b"), ("a", "")])

    def test_split(self):
        self.assertEqual(regress.split(", *", "a, b,c"), ["a", "b", "c"])
        self.assertEqual(regress.split("(,)(x)?", "a,b,xc"), ["a", ",", None, "b", ",", "x", "c"])
        self.assertEqual(regress.split(",", "a,b,c", 1), ["a", "b,c"])
        self.assertEqual(regress.split(",", "é,😀"), ["é", "😀"])

    def test_sub_by_templates(self):
        self.assertEqual(regress.sub(r"(?<y>\d{4})-(\d\d)", "$2/$<y>", "2025-06 2026-07"), "06/2025 07/2026")
        self.assertEqual(regress.sub("b", "[$`|$&|$'|$$]", "abc"), "a[a|b|c|$]c")
        self.assertEqual(regress.sub("a", "b", "aaa", 1), "baa")
        self.assertEqual(regress.sub("a", "$&$&", "aaa", 2), "aaaaa")
        self.assertEqual(regress.sub("é", "😀" * 100, "é" * 50), "😀" * 5000)
        self.assertEqual(regress.subn("a", "b", "aaa", 2), ("bba", 2))

    def test_sub_by_functions(self):
        doubled = regress.sub(r"\d+", lambda found: str(2 * int(found[0])), "5, 10")
        self.assertEqual(doubled, "10, 20")
        self.assertEqual(regress.sub("a", lambda found: "$&", "aaa", 2), "$&$&a")

    def test_templates_are_read_as_the_library_does(self):
        """`expand`, which is written here, and the library's replacing, which is proved, answer the same."""
        templates = ["$1", "$01", "$10", "$11", "$010", "$2", "$20", "$0", "$00", "$", "$$", "$$1", "$&$'$`", "$<a>", "$<b>", "$<a",
                     "$<>", "$x", "$<a$&>", "é$1😀", "$9", "$99", "$<a>$<a>", "$$<a>"]
        patterns = ["(b)", "(?<a>b)", "(b)(x)?", "(?<a>x)|(?<b>b)", "b", "((((((((((b))))))))))", "()()()()()()()()()()()b"]
        for source in patterns:
            for template in templates:
                whole = regress.sub(source, template, "ébc", 1)
                expanded = regress.search(source, "ébc").expand(template)
                self.assertEqual(whole, "é" + expanded + "c", (source, template))

    def test_escape(self):
        text = r"a.b*(c)\d{2}^$|[x]-é/"
        self.assertEqual(regress.search(regress.escape(text), f"x{text}y").group(), text)
        self.assertEqual(regress.search(regress.escape(text), f"x{text}y", "u").group(), text)
        self.assertEqual(regress.escape(""), "")


class Patterns(unittest.TestCase):
    def test_attributes(self):
        pattern = regress.compile("(?<a>x)(y)(?<b>z)", "iu")
        self.assertEqual((pattern.pattern, pattern.flags, pattern.groups), ("(?<a>x)(y)(?<b>z)", "iu", 3))
        self.assertEqual(dict(pattern.groupindex), {"a": 1, "b": 3})
        with self.assertRaises(TypeError):
            pattern.groupindex["c"] = 1
        self.assertEqual(repr(pattern), "regress.compile('(?<a>x)(y)(?<b>z)', 'iu')")
        self.assertIs(regress.compile(pattern), pattern)

    def test_flags(self):
        self.assertTrue(regress.search("straße", "STRAẞE", "iu"))
        self.assertTrue(regress.search("^b", "a\nb", "m"))
        self.assertTrue(regress.search("a.b", "a\nb", "s"))
        self.assertTrue(regress.fullmatch(r"\p{L}+", "héλ", "u"))
        self.assertTrue(regress.search("a", "a", "dgy"))

    def test_linear(self):
        for source in ("(a|ab)*c", "a{3,9}b", "(?<!a)b", "(?=(a)b)a", "(?>a|bc)c", ""):
            self.assertIs(regress.compile(source).linear, True, source)
        other = regress.compile(r"(a)\1")
        self.assertEqual((other.linear, other.linear_steps(10)), (False, None))
        linear = regress.compile("(a|ab)*c")
        self.assertIn(linear.linear_steps(10), range(11, linear.linear_steps(11)))
        self.assertLess(linear.linear_steps(11), 10_000)
        self.assertEqual((linear.linear_steps(2**30), linear.linear_steps(2**70)), (None, None))
        for length, raised in [(-1, ValueError), (1.5, TypeError), ("9", TypeError)]:
            with self.assertRaises(raised):
                linear.linear_steps(length)

    def test_texts_of_another_type(self):
        with self.assertRaises(TypeError):
            regress.search("a", b"a")
        with self.assertRaises(TypeError):
            regress.compile(b"a")
        with self.assertRaises(TypeError):
            regress.compile("a").search(None)

    def test_null_characters(self):
        self.assertEqual(regress.search("b\0", "a\0b\0").span(), (2, 4))
        self.assertEqual(regress.sub("\0", "\0\0", "a\0"), "a\0\0")
