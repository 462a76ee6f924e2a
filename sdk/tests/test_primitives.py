"""Each primitive keeps its promise in all orders of two and three threads, main among them if it takes part, as hunt/search tries them."""

import os
import unittest

from support import SEARCHED, Case, searched

CASES = [
    ("mutex", "-DTHREADS=2 -DROUNDS=2"), ("mutex", "-DTHREADS=3 -DROUNDS=1"),
    ("kinds", "-DTHREADS=2 -DKIND=0"), ("kinds", "-DTHREADS=2 -DKIND=1"), ("kinds", "-DTHREADS=2 -DKIND=2"),
    ("signal", "-DTHREADS=1"), ("signal", "-DTHREADS=2"), ("broadcast", "-DTHREADS=1"), ("broadcast", "-DTHREADS=2"),
    ("timed", ""), ("timed", "-DAFTER"), ("wait", "-DWAIT=while"), ("wait", "-DWAIT=while --spurious"),
    ("barrier", "-DTHREADS=2 -DROUNDS=2"), ("barrier", "-DTHREADS=3 -DROUNDS=1"),
    ("rwlock", "-DWRITERS=2 -DREADERS=1"), ("rwlock", "-DWRITERS=1 -DREADERS=2"),
    ("spin", "-DTHREADS=2 -DTRIES=1"), ("spin", "-DTHREADS=3 -DTRIES=0"), ("once", "-DTHREADS=2"), ("once", "-DTHREADS=3"),
    ("semaphore", "-DTHREADS=1 -DTOKENS=1"), ("semaphore", "-DTHREADS=2 -DTOKENS=1"),
    ("join", "-DPTHREADS=2"), ("join", "-DPTHREADS=4 --threads 3"), ("exit", ""), ("exit", "-DHOLDING"),
    ("atomics", "-DTHREADS=2 -DWIDE=0"), ("atomics", "-DTHREADS=2 -DWIDE=1"),
    ("heap", "-DTHREADS=2 -DHANDED"), ("heap", "-DTHREADS=2 --heap 256"),
]

# These take minutes.
LONG = [("kinds", "-DTHREADS=3 -DKIND=1"), ("signal", "-DTHREADS=3"), ("spin", "-DTHREADS=3 -DTRIES=1"), ("semaphore", "-DTHREADS=3 -DTOKENS=1"),
        ("heap", "-DTHREADS=3 --heap 256")]


class Primitives(Case):
    def test_all_orders(self):
        cases = CASES + (LONG if "SDK_LONG" in os.environ else [])
        self.each(cases, lambda case: searched(SEARCHED / (case[0] + ".c"), *case[1].split(), seconds=600),
                  lambda _, found: self.assertClear(found))


if __name__ == "__main__":
    unittest.main()
