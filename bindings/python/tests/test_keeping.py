"""Patterns that are copied, pickled, compared, shared by threads, and freed."""

import copy
import gc
import os
import pickle
import subprocess
import sys
import threading
import unittest

import regress


class Keeping(unittest.TestCase):
    def test_pickle_and_copy(self):
        pattern = regress.compile(r"(?<year>\d{4})", "u")
        for protocol in range(pickle.HIGHEST_PROTOCOL + 1):
            again = pickle.loads(pickle.dumps(pattern, protocol))
            self.assertEqual(again, pattern)
            self.assertEqual(again.search("in 2025")["year"], "2025")
        limited = pickle.loads(pickle.dumps(regress.compile("ab", limit=10)))
        self.assertEqual((limited.pattern, limited.limit), ("ab", 10))
        self.assertIs(copy.copy(pattern), pattern)
        self.assertIs(copy.deepcopy([pattern])[0], pattern)

    def test_pickle_into_another_process(self):
        sent = pickle.dumps(regress.compile("é+", "i"))
        program = "import pickle, sys; print(ascii(pickle.load(sys.stdin.buffer).search('aÉé').span()))"
        where = dict(os.environ, PYTHONPATH=os.path.dirname(regress.__file__))
        ran = subprocess.run([sys.executable, "-c", program], input=sent, capture_output=True, check=True, env=where)
        self.assertEqual(ran.stdout.split(), [b"(1,", b"3)"])

    def test_equality_and_keys(self):
        one, other = regress.Pattern("a", "i"), regress.Pattern("a", "i")
        self.assertIsNot(one, other)
        self.assertEqual({one: 1}[other], 1)
        self.assertNotEqual(one, regress.Pattern("a"))
        self.assertNotEqual(one, "a")

    def test_kept_patterns(self):
        pattern = regress.compile("kept")
        self.assertIs(regress.compile("kept"), pattern)
        regress.purge()
        self.assertIsNot(regress.compile("kept"), pattern)

    def test_a_match_outlives_all_else(self):
        found = regress.Pattern("(b)").search("".join(["é", "b"]))
        regress.purge()
        gc.collect()
        self.assertEqual((found.span(1), found.group(1), found.string), ((1, 2), "b", "éb"))

    def test_an_iterator_outlives_its_pattern(self):
        found = regress.Pattern("a").finditer("a" * 300)
        gc.collect()
        self.assertEqual(sum(1 for _ in found), 300)

    def test_handles_are_freed(self):
        freed = []
        handle, free = regress._Handle, regress._library.regress_raw_free
        search = handle.__del__
        handle.__del__ = lambda held: (freed.append(held.held is not None), search(held))
        self.addCleanup(setattr, handle, "__del__", search)
        pattern = regress.Pattern("(a)")
        self.assertTrue(pattern.fullmatch("a"))
        del pattern
        gc.collect()
        # the pattern, its search, the pattern for whole texts, and the search of that
        self.assertEqual(freed, [True] * 4)
        held = handle()
        free(held)
        self.assertIsNone(held.held)

    def test_threads_share_a_pattern(self):
        pattern, counts = regress.compile(r"(\d)(é)?"), []

        def work(start):
            text = ("1é" * 50 + "2") * 20
            for _ in range(50):
                counts.append(sum(1 for found in pattern.finditer(text) if found.group(1)))
                counts.append(len(pattern.findall(text)))

        threads = [threading.Thread(target=work, args=(k,)) for k in range(4)]
        for thread in threads:
            thread.start()
        for thread in threads:
            thread.join()
        self.assertEqual(counts, [1020] * 400)
