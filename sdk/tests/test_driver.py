"""delorean-cc itself: what it takes and refuses, and the plans that it writes."""

from pathlib import Path
import re
import shutil
import tempfile
import unittest

from support import CC, SDK, Case, call, called, compiled, image, program, ran, with_lines

HELLO = '#include <stdio.h>\nint main(void) { printf("hello, world %d\\n", 42); return 7; }\n'


class Driver(Case):
    def setUp(self):
        folder = tempfile.TemporaryDirectory()
        self.addCleanup(folder.cleanup)
        self.at = Path(folder.name)

    def written(self, text, name="a.c"):
        (self.at / name).parent.mkdir(exist_ok=True)
        (self.at / name).write_text(text)
        return self.at / name

    def instructions(self):
        """How many the recorded program did, and after how many events its last commit came."""
        sizes = re.findall(r"^c \d+ \d+ (\d+)", (self.at / "a.txt").read_text(), re.M)
        return sum(map(int, sizes)), int(re.findall(r"^g (\d+)", (self.at / "a.report").read_text(), re.M)[-1])

    def test_hello_costs_little(self):
        image(self.at, self.written(HELLO), "--cores", 1, "--chunk", 4096)
        called(program(), "run", self.at / "a.toml")
        instructions, events = self.instructions()
        self.assertLessEqual((instructions <= 600, events <= 2500), (True, True), (instructions, events))
        self.assertGreater(instructions, 100)

    def test_memory_and_plan(self):
        """The memory that is told is that of the plan, and what lies beyond it isn't used."""
        made = image(self.at, self.written(HELLO), "--heap", 4096, "--stack", 1024, "--seed", 9)
        plan = (self.at / "a.toml").read_text()
        self.assertIn("memory = %d\n" % made.memory, plan)
        self.assertIn("seed = 9\n", plan)
        self.assertEqual(made.memory % 4096, 0)
        called(program(), "run", self.at / "a.toml")
        (self.at / "a.toml").write_text(with_lines(plan, {"memory": made.memory - 4096}))
        self.assertIn("refused image 0 10", call(program(), "run", self.at / "a.toml").stdout)

    def test_same_bytes_each_time(self):
        hello = self.written(HELLO)
        images = []
        for _ in range(2):
            image(self.at, hello)
            images.append((self.at / "a.elf").read_bytes())
        self.assertEqual(images[0], images[1])

    def test_several_sources(self):
        """Compiled apart, from names with spaces, with a header in a folder, and called by a link from elsewhere."""
        one = self.written('#include "number.h"\nint number(void) { return NUMBER + MORE; }\n', "the one.c")
        two = self.written('#include "number.h"\nint main(void) { return number(); }\n', "two.c")
        self.written("#define NUMBER 5\nint number(void);\n", "more/number.h")
        linked = self.at / "delorean-cc"
        linked.symlink_to(CC)
        for source in (one, two):
            called(linked, "-c", "-O2", "-Wall", "-DMORE=2", "-I", self.at / "more", source, "-o", source.with_suffix(".o"))
        self.assertEqual(ran(one.with_suffix(".o"), two.with_suffix(".o"), "-lm", "-pthread").code, 7)

    def test_installed_where_nothing_can_be_written(self):
        """Then the library is kept in the user's cache."""
        there = self.at / "sdk"
        shutil.copytree(SDK, there, ignore=shutil.ignore_patterns("out", "tests", "__pycache__"))
        (there / "out").write_text("")  # no folder, for root too
        done = call(there / "cc", self.written(HELLO), "-o", self.at / "a.elf", env={"XDG_CACHE_HOME": str(self.at / "cache")})
        self.assertEqual(done.returncode, 0, done.stdout)
        self.assertTrue(list((self.at / "cache").glob("delorean-sdk/*/libdelorean.a")))

    def test_a_frame_larger_than_a_stack(self):
        source = self.written("int f(char *); int main(void) { char local[3000]; return f(local); } int f(char *p) { return *p; }")
        self.assertIn("larger than 1936 bytes", compiled(self.at, source).text)
        self.assertNotIn("warning", compiled(self.at, source, "--stack", 4096).text)

    REFUSED = [
        ('#include <stdio.h>\nint main(void) { return fopen("x", "r") != 0; }', "there are no files"),
        ('#include <stdlib.h>\nint main(void) { return system("ls"); }', "there is one process"),
        ("#include <unistd.h>\nint main(void) { return fork(); }", "there is one process"),
        ("#define _GNU_SOURCE\n#include <unistd.h>\nint main(void) { return gettid(); }", "take pthread_self"),
        ('#include <err.h>\nint main(void) { errx(1, "no"); }', "take fprintf to stderr, and exit"),
        ("#include <stdio.h>\nint main(void) { char *text; size_t size; return !open_memstream(&text, &size); }", "take snprintf"),
        ("#include <pthread.h>\nint main(void) { return pthread_cancel(pthread_self()); }", "a thread can't be cancelled"),
        ("#include <pthread.h>\nint main(void) { pthread_mutexattr_t a; return pthread_mutexattr_setrobust(&a, PTHREAD_MUTEX_ROBUST); }",
         "there are no robust mutexes"),
        ("#define _GNU_SOURCE\n#include <pthread.h>\nint main(void) { cpu_set_t s; CPU_ZERO(&s); CPU_SET(1, &s);"
         " return pthread_setaffinity_np(pthread_self(), sizeof s, &s); }", "threads have no processors of their own"),
        ("#include <signal.h>\nint main(void) { return signal(2, 0) != 0; }", "there are no signals"),
        ("#include <sys/socket.h>\nint main(void) { return 0; }", "there is no network"),
        ("#include <sys/mman.h>\nint main(void) { return 0; }", "memory can't be mapped"),
        ("int open(); int main(void) { return open(); }", "delorean-cc: open: there are no files"),
        ("int fork(); int main(void) { return fork(); }", "delorean-cc: fork: there is one process"),
        ("int helper(void) { return 0; }", "delorean-cc: no source has a main"),
        ("int main(void) { unsigned __int128 x = 5; return (int)x; }", "delorean-cc: there is no __int128 on a machine of 32 bits"),
        ("#include <threads.h>\nstruct lock { int (*mtx_lock)(mtx_t *); };\nint main(void) { struct lock l = {mtx_lock}; mtx_t m; "
         "return l.mtx_lock(&m); }", "delorean-cc: thrd_create, mtx_lock and the like are macros too"),
        ("_Thread_local _Alignas(64) int x; int main(void) { return x; }", "aligned to more than 16 bytes"),
    ]

    def test_what_cannot_be(self):
        def said(case):
            with tempfile.TemporaryDirectory() as folder:
                (Path(folder) / "a.c").write_text(case[0] + "\n")
                return compiled(folder, Path(folder) / "a.c")
        def check(case, got):
            self.assertEqual(got.status, 1, got.text)
            self.assertIn(case[1], got.text)
        self.each(self.REFUSED, said, check)

    def test_words_that_will_not_do(self):
        hello = self.written(HELLO)
        for words, sentence in [([hello, "-fsanitize=thread"], "sanitizers need an operating system"), ([self.at / "a.cpp"], "only C is compiled"),
                                ([hello, "--threads", "64"], "--threads is a number from 1 to 63"), ([hello, "-o"], "-o has no value"), ([hello, "--event-time", "7"], "a power of ten"),
                                
                                (["-O2"], "no source is given")]:
            got = call(CC, *words)
            self.assertEqual(got.returncode, 2, got.stdout)
            self.assertIn(sentence, got.stdout)
        self.assertIn("usage: delorean-cc", call(CC, "--help").stdout)


MANY = """#include <pthread.h>
#include <stdio.h>
#ifndef ROUNDS
#define ROUNDS 1
#endif
static pthread_barrier_t barrier;
static int total;
static void *work(void *p) {
    if (AT_ONCE == 2) pthread_barrier_wait(&barrier);
    __atomic_fetch_add(&total, 1, __ATOMIC_SEQ_CST);
    return p;
}
int main(void) {
    pthread_t t[COUNT];
    pthread_barrier_init(&barrier, 0, COUNT);
    for (int r = 1; r < ROUNDS; r++) {
        for (int j = 0; j < COUNT; j++) if (pthread_create(&t[j], 0, work, 0)) return 1;
        for (int j = 0; j < COUNT; j++) pthread_join(t[j], 0);
    }
    for (int j = 0; j < COUNT; j++) {
        if (pthread_create(&t[j], 0, work, 0)) return 1;
        if (!AT_ONCE) pthread_join(t[j], 0);
    }
    for (int j = 0; AT_ONCE && j < COUNT; j++) pthread_join(t[j], 0);
    return total != COUNT * ROUNDS;
}
"""


class ManyThreads(Case):
    def ran(self, *words, **lines):
        with tempfile.TemporaryDirectory() as folder:
            source = Path(folder) / "a.c"
            source.write_text(MANY)
            return ran(source, *words, **lines)

    def test_in_rounds(self):
        """Nine at once, and nine again when they are joined, four times."""
        got = self.ran("-DCOUNT=9", "-DAT_ONCE=1", "-DROUNDS=4")
        self.assertEqual((got.code, got.console), (0, ""))

    def test_one_after_another(self):
        """A hundred, of which the first twelve end in the kernel, and the rest shares the last two places."""
        got = self.ran("-DCOUNT=100", "-DAT_ONCE=0")
        self.assertEqual((got.code, got.console, len(got.states)), (0, "", 15))
        self.assertEqual(got.states[1:13], ["ended:0"] * 12)

    def test_too_many_at_once(self):
        got = self.ran("-DCOUNT=15", "-DAT_ONCE=2")
        self.assertEqual((got.code, got.console), (1, "pthread_create: no thread is left: give delorean-cc --threads 63\n"))

    def test_sixty_two(self):
        """By a script that places them all, in a log of version 2."""
        got = self.ran("-DCOUNT=62", "-DAT_ONCE=1", "--threads", 63, "--events", 700000, chunk=16)
        self.assertEqual((got.code, len(got.states)), (0, 63))


if __name__ == "__main__":
    unittest.main()
