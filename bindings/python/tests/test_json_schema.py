"""Rows in which Python's `re` answers otherwise than JSON Schema asks, and the keywords that have patterns."""

import json
import os
import subprocess
import sys
import tempfile
import unittest
import warnings

try:
    import json_schema
    from jsonschema import Draft202012Validator, FormatChecker
except ImportError:
    raise unittest.SkipTest("the validator of JSON Schema: python3-jsonschema is not there") from None

import regress

# A pattern, a text, and whether it occurs there. By `re` each is otherwise, or an error.
ROWS = [
    (r"^\d+$", "٣٤", False),                      # digits are those of ASCII
    (r"^\w+$", "é", False),                       # so are the letters of words
    (r"^\W$", "é", True),
    (r"^a$", "a\n", False),                       # `$` is the end of the text alone
    (r"^a.b$", "a\rb", False),                    # `.` is none of four line terminators
    (r"^a.b$", "a\u2028b", False),
    (r"^\s$", "\ufeff", True),                    # white space of ECMAScript
    (r"^\s$", "\x1f", False),
    (r"^\p{L}+$", "λόγος", True),                 # properties of Unicode
    (r"^\P{Lu}$", "ß", True),
    (r"^\p{Script=Greek}+$", "λόγος", True),
    (r"^[^]$", "\n", True),                       # any character, and none
    (r"[]", "a", False),
    (r"^(?<n>a)\k<n>$", "aa", True),              # named groups
    (r"^\cA$", "\x01", True),                     # a control character
    (r"^\u{1F600}$", "😀", True),                 # a character by its number
    (r"^(?:(a)|b)*\1$", "ab", True),              # a group is forgotten before each round
    (r"^(?:(a)|b)\1$", "b", True),                # a reference to what took no part is empty
    (r"(?<=a+)b", "aab", True),                   # lookbehind of any length
    (r"^[^\d]$", "٣", True),
]

# Texts, and whether they are patterns.
REGEXES = [
    (r"(?<n>a)", True), (r"\p{L}", True), (r"[^]", True), (r"\cA", True),
    (r"(?P<n>a)", False), (r"a\Z", False), (r"(?i)a", False), (r"a{,3}", False), (r"\a", False),
]


def is_valid(schema, instance):
    return json_schema.Validator(schema, format_checker=json_schema.FORMATS).is_valid(instance)


def by_re(schema, instance):
    """What the validator that goes by `re` answers: None for an error."""
    try:
        with warnings.catch_warnings():
            warnings.simplefilter("ignore")
            return Draft202012Validator(schema, format_checker=FormatChecker()).is_valid(instance)
    except Exception:  # an error of `re`
        return None


class Patterns(unittest.TestCase):
    def test_rows(self):
        self.assertEqual(len(ROWS), 20)
        for source, text, expected in ROWS:
            with self.subTest(pattern=source):
                schema = {"pattern": source}
                self.assertEqual(is_valid(schema, text), expected)
                self.assertNotEqual(by_re(schema, text), expected)

    def test_names_of_properties(self):
        for source, text, expected in ROWS:
            with self.subTest(pattern=source):
                self.assertEqual(is_valid({"patternProperties": {source: False}}, {text: 1}), not expected)
                self.assertEqual(is_valid({"patternProperties": {source: True}, "additionalProperties": False}, {text: 1}), expected)
                self.assertEqual(is_valid({"patternProperties": {source: True}, "unevaluatedProperties": False}, {text: 1}), expected)

    def test_the_format_of_patterns(self):
        for text, expected in REGEXES:
            with self.subTest(text=text):
                schema = {"format": "regex"}
                self.assertEqual(is_valid(schema, text), expected)
                self.assertNotEqual(by_re(schema, text), expected)
        self.assertTrue(is_valid({"format": "regex"}, 5))


class Keywords(unittest.TestCase):
    def test_what_is_no_text_or_no_object(self):
        for keyword, value in [("pattern", "a"), ("patternProperties", {"": False}), ("additionalProperties", False),
                               ("unevaluatedProperties", False)]:
            self.assertTrue(is_valid({keyword: value}, 5))

    def test_what_is_evaluated_inside(self):
        letters = {"patternProperties": {r"^\p{L}$": {"type": "integer"}}}
        for holder in [{"allOf": [letters]}, {"anyOf": [False, letters]}, {"oneOf": [letters]}, {"if": letters}, {"$ref": "#/$defs/l"},
                       {"if": True, "then": letters}, {"if": False, "else": letters}, {"dependentSchemas": {"λ": letters}}]:
            schema = dict(holder, unevaluatedProperties=False, **{"$defs": {"l": letters}})
            with self.subTest(schema=holder):
                self.assertTrue(is_valid(schema, {"λ": 1}))
                self.assertFalse(is_valid(schema, {"λ": 1, "λλ": 1}))

    def test_what_is_left_is_checked(self):
        schema = {"properties": {"a": {}}, "additionalProperties": {"type": "string"}}
        self.assertTrue(is_valid(schema, {"a": 1, "b": "x"}))
        self.assertFalse(is_valid(schema, {"a": 1, "b": 1}))
        schema = {"properties": {"a": {}}, "unevaluatedProperties": {"type": "string"}}
        self.assertTrue(is_valid(schema, {"a": 1, "b": "x"}))
        self.assertFalse(is_valid(schema, {"a": 1, "b": 1}))

    def test_the_program(self):
        with tempfile.TemporaryDirectory() as folder:
            names = [os.path.join(folder, name) for name in ("schema", "right", "wrong")]
            texts = [{"properties": {"year": {"pattern": r"^\d{4}$"}}}, {"year": "2025"}, {"year": "٢٠٢٥"}]
            for name, text in zip(names, texts):
                with open(name, "w", encoding="utf-8") as file:
                    json.dump(text, file)
            program = [sys.executable, "-W", "ignore", json_schema.__file__, names[0]]
            where = dict(os.environ, PYTHONPATH=os.path.dirname(regress.__file__), PYTHONIOENCODING="utf-8")
            self.assertEqual(subprocess.run(program + [names[1]], check=False, env=where).returncode, 0)
            ran = subprocess.run(program + [names[2]], check=False, capture_output=True, encoding="utf-8", env=where)
            self.assertEqual((ran.returncode, ran.stdout), (1, "$.year: '٢٠٢٥' does not match '^\\\\d{4}$'\n"))
