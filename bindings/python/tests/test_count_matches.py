"""Matches counted by two workers, over 200 MB in parts, are as many as one process counts."""

import os
import random
import tempfile
import unittest

try:
    import count_matches
    from distributed import Client
except ImportError:
    raise unittest.SkipTest("counting on a cluster: python3-distributed is not there") from None

import regress

PARTS, SIZE = 20, 10_000_000
DATE = r"(?<year>\d{4})-(\d\d)-(\d\d)"


def write_part(name, seed):
    """Writes a file of some 10 MB, of a block that is there again and again, and answers how many dates it has."""
    draw, lines, dates = random.Random(seed), [], 0
    while len(lines) < 1000:
        has_date = draw.random() < 0.25
        dates += has_date
        date = f"{draw.randrange(1990, 2030)}-{draw.randrange(10, 13)}-{draw.randrange(10, 29)}" if has_date else "12-2025-1"
        lines.append(f"{date} host{draw.randrange(100)} wört app[{draw.randrange(32768)}]: id={draw.randrange(10 ** 9)}\n")
    block = "".join(lines).encode()
    times = SIZE // len(block) + 1
    with open(name, "wb") as file:
        for _ in range(times):
            file.write(block)
    return dates * times


class Counting(unittest.TestCase):
    def test_two_workers_count_as_one_process(self):
        pattern = regress.compile(DATE, "u")
        with tempfile.TemporaryDirectory() as folder:
            names = [os.path.join(folder, f"part{k}") for k in range(PARTS)]
            written = [write_part(name, seed) for seed, name in enumerate(names)]
            self.assertGreaterEqual(sum(map(os.path.getsize, names)), PARTS * SIZE)
            with count_matches.local_cluster() as cluster, Client(cluster) as client:
                self.assertEqual(len(client.scheduler_info()["workers"]), 2)
                on_cluster = count_matches.count_on(client, pattern, names)
            self.assertEqual(on_cluster, written)
            self.assertEqual([count_matches.count_in_file(pattern, name) for name in names], written)
