"""Offsets are code points, in texts of every form, and are told without reading a text again and again."""

import random
import re
import unittest

import regress

FORMS = {
    "ascii": "abc xyz",
    "two bytes": "abé",
    "three bytes": "a中b",
    "four bytes": "a😀b",
    "halves": "a\ud83db",
    "halves beside pairs": "a😀\udc00b",
}


def spans(matches):
    return [found.regs for found in matches]


class Offsets(unittest.TestCase):
    def test_as_re_has_them(self):
        draw = random.Random(1)
        ours, theirs = regress.compile("(a)|(b+)|(?<=(..))x"), re.compile("(a)|(b+)|(?<=(..))x", re.S)
        for name, letters in FORMS.items():
            for length in [0, 1, 2, 3, 10, 511, 512, 513, 1024, 2000]:
                text = "".join(draw.choice(letters + "abx") for _ in range(length))
                with self.subTest(form=name, length=length):
                    self.assertEqual(spans(ours.finditer(text)), spans(theirs.finditer(text)))
                    for pos in sorted({0, 1, 2, length // 2, length - 1, length} & set(range(length + 1))):
                        found, other = ours.search(text, pos), theirs.search(text, pos)
                        self.assertEqual(found and found.regs, other and other.regs)
                        found, other = ours.match(text, pos), theirs.match(text, pos)
                        self.assertEqual(found and found.regs, other and other.regs)

    def test_texts_of_groups(self):
        for name, letters in FORMS.items():
            with self.subTest(form=name):
                text = f"<{letters}>{letters}<{letters}>"
                self.assertEqual(regress.findall("<([^>]*)>", text), [letters, letters])
                self.assertEqual(regress.split("[<>]", text), ["", letters, letters, letters, ""])
                self.assertEqual(regress.sub("[<>]", "", text), 3 * letters)
                self.assertEqual(regress.sub("<([^>]*)>", "[$1$`]", text, 1), f"[{letters}]{letters}<{letters}>")

    def test_halves_of_pairs(self):
        self.assertEqual(regress.search("\ud83d", "a\ud83d").span(), (1, 2))
        self.assertEqual(regress.search(r"\uD83D", "a\ud83d").span(), (1, 2))
        self.assertIsNone(regress.search(r"\uD83D", "a😀", "u"))
        self.assertEqual(regress.fullmatch("\ud83d|\ud83db", "\ud83db").span(), (0, 2))
        with self.assertRaises(regress.error):
            regress.compile("\ud83d😀")

    def test_ends_of_windows(self):
        self.assertEqual(regress.compile(".", "s").findall("é😀a", 1, 2), ["😀"])
        self.assertEqual(regress.compile("$").search("é😀a", 0, 2).span(), (2, 2))


class Costs(unittest.TestCase):
    """How many bytes are looked at, to turn offsets into code points."""

    def setUp(self):
        self.seen = 0
        begun = regress._Utf8._begun

        def counted(text, start, end):
            self.seen += end - start
            return begun(text, start, end)

        regress._Utf8._begun = counted
        self.addCleanup(setattr, regress._Utf8, "_begun", begun)
        self.text = "wörd " * 20000
        self.length = len(self.text.encode())

    def test_of_all_matches(self):
        found = [each.span() for each in regress.finditer("ö(r)", self.text)]
        self.assertEqual(found[-1], (99996, 99998))
        self.assertLessEqual(self.seen, self.length + 2 * regress._Utf8.BLOCK * len(found))

    def test_of_texts_alone(self):
        self.assertEqual(len(regress.findall("ö(r)", self.text)), 20000)
        self.assertEqual(self.seen, 0)

    def test_of_a_tokeniser(self):
        pattern, place, count = regress.compile(r"[^ ]+ ?"), 0, 0
        while place < len(self.text):
            place = pattern.match(self.text, place).end()
            count += 1
        self.assertEqual(count, 20000)
        self.assertLessEqual(self.seen, self.length + regress._Utf8.BLOCK * count)
