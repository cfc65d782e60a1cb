"""Counts the matches of a pattern in many files, on a cluster: how a program outgrows one process, and then one machine.

    python3 count_matches.py [--cluster ADDRESS] FLAGS PATTERN FILE..

The work is `python3-distributed`'s. Without an address it starts two workers on this machine; a scheduler elsewhere has as many as
there are. A pattern is pickled to each worker by its text and compiled there. It prints the number of matches of each file, and
their sum.
"""

import argparse
from contextlib import ExitStack

from distributed import Client, LocalCluster

import regress


def count_in_file(pattern, name):
    """How many matches a file has, which is read as a whole: a match may go over lines."""
    with open(name, encoding="utf-8", newline="") as file:
        return sum(1 for _ in pattern.finditer(file.read()))


def count_on(client, pattern, names):
    """The number of matches of each file, by the workers of a cluster."""
    return client.gather(client.map(count_in_file, [pattern] * len(names), names, pure=False))


def local_cluster(workers=2):
    """Workers on this machine, each a process of one thread: while one searches, it holds its interpreter's lock."""
    return LocalCluster(n_workers=workers, threads_per_worker=1, processes=True, dashboard_address=None)


def main():
    words = argparse.ArgumentParser(description=__doc__.splitlines()[0])
    words.add_argument("--cluster")
    words.add_argument("flags")
    words.add_argument("pattern")
    words.add_argument("files", nargs="+")
    given = words.parse_args()
    pattern = regress.compile(given.pattern, given.flags)
    with ExitStack() as ends:
        cluster = given.cluster or ends.enter_context(local_cluster())
        client = ends.enter_context(Client(cluster))
        counts = count_on(client, pattern, given.files)
    for name, count in zip(given.files, counts):
        print(f"{count}\t{name}")
    print(f"{sum(counts)}\tall")


if __name__ == "__main__":
    main()
