"""What is refused, and how it is told."""

import itertools
import pickle
import re
import unittest

import regress


def text_of_letters(pos):
    """A match of ten characters behind as many others as `pos` says."""
    return "-" * pos + "ababababac"


class Refused(unittest.TestCase):
    def refusal(self, pattern, flags=""):
        with self.assertRaises(regress.error) as caught:
            regress.compile(pattern, flags)
        return caught.exception

    def test_a_pattern(self):
        refused = self.refusal("a(b")
        self.assertIsInstance(refused, re.error)
        self.assertEqual((refused.msg, refused.pattern, refused.code), ("Unbalanced parenthesis", "a(b", -7))
        self.assertIn(refused.pos, range(4))

    def test_the_place_is_in_code_points(self):
        ascii_place = self.refusal("aaaa\\p{Nothing}", "u").pos
        self.assertEqual(self.refusal("aé中😀\\p{Nothing}", "u").pos, ascii_place)
        self.assertEqual(self.refusal("aé中\ud83d\\p{Nothing}", "u").pos, ascii_place)
        refused = self.refusal("a\n\\p{Nothing}", "u")
        self.assertEqual((refused.lineno, refused.colno), (2, refused.pos - 1))

    def test_limits(self):
        for pattern, code in [("(" * 300 + ")" * 300, -8), ("()" * 65536, -9), ("a*" * 65536, -10)]:
            refused = self.refusal(pattern)
            self.assertEqual((refused.code, refused.pos), (code, None))

    def test_a_limit(self):
        for pattern in ("ab", "\ud83db"):
            self.assertEqual(regress.compile(pattern, limit=10).fullmatch(pattern).group(), pattern)
            with self.assertRaises(regress.error) as caught:
                regress.compile(pattern, limit=9)
            refused = caught.exception
            self.assertEqual((refused.msg, refused.pos, refused.code), ("pattern costs more than its limit", None, -18))
        # 800 groups of one name, and 800 times a reference to all of them, which may take 1,280,000 instructions.
        many = "(?:" + "|".join(["(?<n>)"] * 800) + ")" + r"\k<n>" * 800
        self.assertEqual(self.refusal(many).code, -18)
        self.assertEqual(regress.compile(many, limit=2_000_000).groups, 800)
        self.assertEqual(regress.compile("a", limit=2**64).limit, 2**64)
        for limit, raised in [(-1, ValueError), (1.5, TypeError), ("9", TypeError)]:
            with self.assertRaises(raised):
                regress.compile("a", limit=limit)
        with self.assertRaises(ValueError):
            regress.compile(regress.compile("a"), limit=9)

    def test_too_many_steps(self):
        text, far = "bc abababababababababc", "é\U0001F600"
        for string in (text, text + far, text + far + "\ud83d"):
            with self.subTest(string=string):
                self.tried_within(string)

    def tried_within(self, string):
        source = "(?:(a)|b)*c"
        free = regress.compile(source)
        for steps in range(200):
            bounded = regress.compile(source, max_steps=steps)
            try:
                self.assertEqual(bounded.findall(string), ["", ""])
                break
            except regress.TooManySteps as caught:
                self.assertIsInstance(caught, regress.error)
                self.assertEqual((caught.msg, caught.pattern, caught.pos, caught.code), ("too many steps", source, None, -19))
                self.assertEqual(pickle.loads(pickle.dumps(caught)).args, caught.args)
        self.assertIn(steps, range(10, 199))
        short = regress.compile(source, max_steps=steps - 1)
        self.assertEqual(short.search(string).span(), (0, 2))
        self.assertEqual([found.span() for found in itertools.islice(short.finditer(string), 1)], [(0, 2)])
        self.assertEqual(short.sub("", string, 1), string[2:])
        self.assertEqual(short.split(string, 1), ["", None, string[2:]])
        calls = [
            lambda: short.search(string, 2), lambda: list(short.finditer(string, 2)),
            lambda: short.findall(string), lambda: short.sub("", string), lambda: short.sub(regress.Match.group, string, 2),
            lambda: short.subn("", string), lambda: short.split(string),
        ]
        for call in calls:
            self.assertRaises(regress.TooManySteps, call)
        self.assertEqual(bounded.sub("<$&>", string), free.sub("<$&>", string))
        self.assertEqual(bounded.subn("$1", string), free.subn("$1", string))
        self.assertRaises(regress.TooManySteps, regress.compile(source, max_steps=3).match, string, 3)
        for pos in (0, 1):
            self.assertRaises(regress.TooManySteps, regress.compile(source, max_steps=3).fullmatch, text_of_letters(pos), pos)
            self.assertEqual(bounded.fullmatch(text_of_letters(pos), pos).end(), 10 + pos)

    def test_enough_steps(self):
        linear = regress.compile("(a|ab)*c")
        for string in ("ab" * 2500, "é" + "ab" * 2500, "\ud83d" + "ab" * 2500, "\ud83d\U0001F600" + "ab" * 2500):
            with self.subTest(string=string[:3]):
                steps = linear.linear_steps(len((string + "c").encode("utf-8", "surrogatepass")))
                bounded = regress.compile("(a|ab)*c", max_steps=steps)
                self.assertIsNone(bounded.search(string))
                self.assertIsNone(bounded.search(string[1:]))
                self.assertIsNone(bounded.match(string, 1))
                self.assertEqual(bounded.findall(string + "c"), ["ab"])
        few = regress.compile("(a|ab)*c", max_steps=linear.linear_steps(5000) // 2)
        self.assertRaises(regress.TooManySteps, few.search, "ab" * 2500)
        fewest = regress.compile("(?:ab?)*c").linear_steps(5000)  # a search that needs the table there
        self.assertIsNone(regress.compile("(?:ab?)*c", max_steps=fewest).search("ab" * 2500))
        self.assertRaises(regress.TooManySteps, regress.compile("(?:ab?)*c", max_steps=fewest - 1).search, "ab" * 2500)
        other = regress.compile(r"(?:(a)\1|a|ab)*c", max_steps=linear.linear_steps(5000))
        self.assertRaises(regress.TooManySteps, other.search, "ab" * 2500)

    def test_a_number_of_steps(self):
        bounded = regress.compile("a", max_steps=5)
        self.assertEqual((bounded.max_steps, regress.compile("a").max_steps), (5, None))
        self.assertEqual(repr(bounded), "regress.compile('a', '', max_steps=5)")
        self.assertEqual(pickle.loads(pickle.dumps(bounded)), bounded)
        self.assertNotEqual(bounded, regress.compile("a"))
        self.assertNotEqual(hash(bounded), hash(regress.compile("a", max_steps=6)))
        self.assertEqual(regress.compile("a", max_steps=2**70).search("ba").span(), (1, 2))
        for steps, raised in [(-1, ValueError), (1.5, TypeError), ("9", TypeError)]:
            with self.assertRaises(raised):
                regress.compile("a", max_steps=steps)
        with self.assertRaises(ValueError):
            regress.compile(bounded, max_steps=6)

    def test_flags(self):
        refused = self.refusal("a", "ix")
        self.assertEqual((refused.pattern, refused.pos, refused.code), ("ix", 1, -12))
        self.assertEqual((self.refusal("a", "ii").pos, self.refusal("a", "ii").code), (1, -13))
        self.assertEqual(self.refusal("a", "uv").code, -14)
        self.assertEqual(self.refusal("a", "é").code, -12)

    def test_errors_pickle(self):
        refused = self.refusal("a(b")
        again = pickle.loads(pickle.dumps(refused))
        self.assertEqual((again.msg, again.pattern, again.pos, again.code), (refused.msg, refused.pattern, refused.pos, refused.code))

    def test_what_is_no_error_of_a_pattern(self):
        with self.assertRaises(ValueError):
            regress.compile(regress.compile("a"), "i")
        with self.assertRaises(UnicodeEncodeError):
            regress.escape("\ud83d")
