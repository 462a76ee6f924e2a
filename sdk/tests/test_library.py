"""Programs that print the same on the machine and on the host, by gcc and by clang."""

from pathlib import Path
import shutil
import tempfile
import unittest

from support import HOST, PROGRAMS, Case, on_host, ran

INPUT = "12 -7 word 2.5\na line\nand\nmore\n"


def without_host(name):
    """What the program prints on the machine, with its code."""
    def run(*words, **lines):
        got = ran(PROGRAMS / (name + ".c"), "-w", *words, **lines)
        return got.code, got.console
    return run


@HOST
class SameAsHost(Case):
    def test_printing(self):
        self.assertEqual(without_host("printing")(cores=1, chunk=4096, events=12000000), (0, on_host(PROGRAMS / "printing.c").stdout))

    def test_library(self):
        wanted = on_host(PROGRAMS / "library.c", input=INPUT, arguments=["alpha", "be ta"])
        with tempfile.TemporaryDirectory() as folder:
            given = Path(folder) / "input"
            given.write_text(INPUT)
            got = without_host("library")("--args", "alpha 'be ta'", input='"%s"' % given)
        self.assertEqual(got, (3, wanted.stdout))

    def test_threads(self):
        wanted = on_host(PROGRAMS / "threads.c", "-latomic")
        self.assertEqual((wanted.returncode, without_host("threads")()), (0, (0, wanted.stdout)))

    def test_sleeping_for_long(self):
        """Two seconds are two thousand events of a millisecond."""
        self.assertEqual(without_host("sleeping")("--event-time", 1000, cores=1, events=20000), (0, on_host(PROGRAMS / "sleeping.c").stdout))

    @unittest.skipUnless(shutil.which("clang") and shutil.which("ld.lld"), "no clang and lld: programs aren't compiled by them")
    def test_threads_by_clang(self):
        self.assertEqual(without_host("threads")("--clang"), (0, on_host(PROGRAMS / "threads.c", "-latomic").stdout))


class Failures(Case):
    """What fails here and not always there: the program ends with 134 or a fault, and says why."""

    CASES = [
        ("assert(1 + 1 == 3);", 134, "a.c:10: main: assertion failed: 1 + 1 == 3\n"),
        ("abort();", 134, "aborted\n"),
        ("char *p = malloc(5); free(p); free(p);", 134, "free: freed before: the block at 0x"),
        ("int x; int *volatile p = &x; free(p);", 134, "free: malloc hasn't given 0x"),
        ("char *volatile p = malloc(5); free(p + 8);", 134, "free: malloc hasn't given 0x"),
        ("char *volatile p = malloc(5); p[5] = 1; free(p);", 134, "malloc: written past the end of the block at 0x"),
        ("char *volatile p = malloc(5); p[5] = 1;", 134, "malloc: written past the end of the block at 0x"),
        ("char *volatile p = malloc(5); p = realloc(p, 50); p[50] = 1; p = realloc(p, 100);", 134, "malloc: written past the end of the block at 0x"),
        ("char *volatile p = malloc(5); free(p); p[2] = 1; p = malloc(5);", 134, "malloc: written after it was freed: the block at 0x"),
        ("char *volatile p = malloc(5); free(p); p[2] = 1;", 134, "malloc: written after it was freed: the block at 0x"),
        ("char *volatile p = malloc(40000);", 134, "malloc: the heap is full: give delorean-cc a larger --heap\n"),
        ("int *volatile p = 0; *p = 1;", 134, "something was stored through a null pointer"),
        ("void (*volatile f)(void) = 0; f();", "fault:2", ""),
        ("int **volatile p = 0; return **p;", "fault:4", ""),
        ("printf(\"%ls\", L\"wide\");", 134, "printf: there is no such conversion: %ls\n"),
        ("char *volatile p = deep(60);", 134, "a stack has grown past its end: give delorean-cc a larger --stack\n"),
        ("char *p = aligned_alloc(64, 100); return (unsigned)p % 64 || (free(p), 0);", 0, ""),
        ("void *p = malloc(1u << 30); return p != 0;", 0, ""),
    ]
    BEGIN = """#include <assert.h>
#include <pthread.h>
#include <stdio.h>
#include <stdlib.h>
#include <string.h>
static char *deep(volatile int n) {
    char local[128];
    return n ? strlen(memset(local, 0, sizeof local)) + deep(n - 1) : 0;
}
int main(void) { """

    def failed(self, case):
        with tempfile.TemporaryDirectory() as folder:
            source = Path(folder) / "a.c"
            source.write_text(self.BEGIN + case[0] + " return 0; }\n")
            return ran(source, "-w", "-O0")

    def check(self, case, got):
        self.assertEqual(got.code, case[1], got)
        self.assertTrue(got.console.startswith(case[2]), got)

    def test_each(self):
        self.each(self.CASES, self.failed, self.check)


if __name__ == "__main__":
    unittest.main()
