"""hunt/find names words and places of small programs as their authors know them. What is expected is read off the sources."""

import re
import unittest

import support
from test_find import CAN_BUILD, HAS_LINES, NO_CROSS_COMPILER, InScratch, find

CAN_COMPILE = HAS_LINES and support.tool("riscv64-unknown-elf-gcc") and CAN_BUILD and support.can_walk()

FREED_LATER = """\
#include <pthread.h>
#include <stdlib.h>
static int *given;
static void *gives(void *unused) { *given = 3; return unused; }
int main(void) {
    pthread_t thread;
    given = calloc(1, 4);
    pthread_create(&thread, NULL, gives, NULL);
    pthread_join(thread, NULL);
    int found = *given;
    free(given);
    return found;
}
"""

LOCK_IN_A_BLOCK = """\
#include <pthread.h>
#include <stdlib.h>
struct stock { int count; pthread_mutex_t lock; };
int main(void) {
    struct stock *stock = calloc(1, sizeof *stock);
    pthread_mutex_init(&stock->lock, NULL);
    pthread_mutex_lock(&stock->lock);
    pthread_mutex_lock(&stock->lock);
}
"""

SORTED = """\
#include <stdlib.h>
static int prices[2] = {2, 1};
static int compare(const void *a, const void *b) { return *(const int *)a - *(const int *)b; }
int main(void) {
    qsort(prices, 2, sizeof prices[0], compare);
    return prices[0];
}
"""

DROPPED = """\
#include <pthread.h>
#include <stdlib.h>
static volatile int is_over, is_wrong;
static int *block;
static void *drops(void *unused) {
    if (!is_over) {
        free(block);
        is_wrong = is_over;
    }
    return unused;
}
int main(void) {
    pthread_t thread;
    block = malloc(4);
    pthread_create(&thread, NULL, drops, NULL);
    is_over = 1;
    pthread_join(thread, NULL);
    return is_wrong;
}
"""

ONCE = """\
#include <pthread.h>
static pthread_once_t once = PTHREAD_ONCE_INIT;
static void load(void);
static void *helper(void *unused) { pthread_once(&once, load); return unused; }
static void load(void) {
    pthread_t thread;
    pthread_create(&thread, NULL, helper, NULL);
    pthread_join(thread, NULL);
}
int main(void) {
    return pthread_once(&once, load);
}
"""

DETACHED = """\
#include <pthread.h>
static void *works(void *unused) { return unused; }
int main(void) {
    pthread_t thread, other;
    pthread_create(&thread, NULL, works, NULL);
    pthread_create(&other, NULL, works, NULL);
    pthread_detach(thread);
    return pthread_join(thread, NULL) != 0;
}
"""

ROUNDS = """\
#include <pthread.h>
#include <semaphore.h>
static sem_t asked, given;
static int turn;
static void *gives(void *unused) {
    for (int j = 0; j < 40; j++) {
        sem_wait(&asked);
        turn++;
        sem_post(&given);
    }
    return unused;
}
int main(void) {
    pthread_t thread;
    sem_init(&asked, 0, 0);
    sem_init(&given, 0, 0);
    pthread_create(&thread, NULL, gives, NULL);
    for (int j = 0; j < 40; j++) {
        int old = turn;
        sem_post(&asked);
        sem_wait(&given);
        turn = old;
    }
    return turn == 0;
}
"""

UNWOUND = """\
#include <pthread.h>
static volatile int *volatile place, is_set;
static __attribute__((noinline)) void call(void) {
    volatile int mine = 3;
    place = &mine;
}
static void *works(void *unused) {
    call();
    while (!is_set);
    return unused;
}
int main(void) {
    pthread_t thread;
    pthread_create(&thread, NULL, works, NULL);
    while (!place);
    *place = 5;
    is_set = 1;
    pthread_join(thread, NULL);
    return 1;
}
"""

GONE = """\
#include <pthread.h>
static volatile int *place;
static void *works(void *unused) {
    volatile int mine = 3;
    place = &mine;
    return unused;
}
int main(void) {
    pthread_t thread;
    pthread_create(&thread, NULL, works, NULL);
    pthread_join(thread, NULL);
    *place = 5;
    return *place;
}
"""

MANY_USES = """\
#include <stdlib.h>
int main(void) {
    volatile int *blocks[12];
    for (int j = 0; j < 12; j++)
        blocks[j] = malloc(4);
    for (int j = 0; j < 12; j++)
        free((void *)blocks[j]);
    for (int j = 0; j < 12; j++)
        *blocks[j] = 5;
    return 0;
}
"""

COMPARED = """\
#include <assert.h>
#include <pthread.h>
#include <string.h>
static char name[8];
static const char *volatile given = "two", *volatile wanted = "one";
static void *names(void *unused) { strncpy(name, given, 7); return unused; }
int main(void) {
    pthread_t thread;
    pthread_create(&thread, NULL, names, NULL);
    pthread_join(thread, NULL);
    assert(strcmp(name, wanted) == 0);
    return 0;
}
"""

CUT = """\
#include <pthread.h>
#include <string.h>
static char texts[2][4] = {"a b", "c d"};
static int is_wrong;
static void *cuts(void *text) {
    strtok(text, " ");
    if (strtok(NULL, " ") != (char *)text + 2)
        is_wrong = 1;
    return NULL;
}
int main(void) {
    pthread_t thread;
    pthread_create(&thread, NULL, cuts, texts[1]);
    cuts(texts[0]);
    pthread_join(thread, NULL);
    return is_wrong;
}
"""

SPINS = """\
#include <pthread.h>
static volatile int is_set;
static void *spins(void *unused) {
    while (!is_set);
    return unused;
}
int main(void) {
    pthread_t thread;
    pthread_create(&thread, NULL, spins, NULL);
    pthread_join(thread, NULL);
}
"""

BYTES = """\
#include <pthread.h>
static volatile char pair[2];
static void *works(void *unused) { pair[0] = 3; return unused; }
int main(void) {
    pthread_t thread;
    pthread_create(&thread, NULL, works, NULL);
    pthread_join(thread, NULL);
    pair[1] = 4;
    return pair[0];
}
"""


@unittest.skipUnless(CAN_COMPILE, NO_CROSS_COMPILER)
class Named(InScratch):
    def said(self, text, *words):
        path = self.out.parent / "prog.c"
        path.write_text(text)
        status, said, errors = find(path, "--out", self.out, *words)
        self.assertEqual(status, 1, said + errors)
        return said

    def test_a_block_that_was_freed_only_later(self):
        self.assertRegex(self.said(FREED_LATER), r"thread 0 \(main\) fails with what it finds: block of prog.c:7 = 00000003 \(commit \d+, main, "
                                                 r"prog.c:10\), which thread 1 has stored \(commit \d+, gives, prog.c:4\)\n")

    def test_a_lock_in_a_block(self):
        self.assertIn("  thread 0 (main) waits for mutex block of prog.c:5+4, main, prog.c:8; holds block of prog.c:5+4 since main, prog.c:7\n"
                      "  thread 0 waits for itself\n", self.said(LOCK_IN_A_BLOCK))

    def test_what_the_library_stored_between_two_calls_of_the_program(self):
        self.assertRegex(self.said(SORTED), r"finds: prices\[0\] = 00000001 \(commit \d+, main, prog.c:[67]\), which it has stored \(commit \d+, "
                                            r"qsort, called from main, prog.c:5\)\n")

    def test_what_is_freed(self):
        why = self.said(DROPPED).partition("\nwhy:\n")[2]
        self.assertRegex(why, r"(?m)^  thread 1 is left with is_over = 00000000 \(commit \d+, drops, prog.c:6\); thread 0 stores 00000001 \(commit \d+, main, "
                              r"prog.c:16\),\n      and thread 1 doesn't check again: it frees block of prog.c:14 \(commit \d+, drops, prog.c:7\)\n")

    def test_who_is_in_a_once(self):
        said = self.said(ONCE)
        for line in ("thread 0 (main) waits for the end of thread 1, load, prog.c:8, called from main, prog.c:11; is in once since main, prog.c:11",
                     "thread 1 (helper) waits for once once, helper, prog.c:4", "so thread 0 waits for thread 1, thread 1 waits for thread 0",
                     "thread 1 (helper) waits for once once (helper, prog.c:4), which thread 0 is in since main, prog.c:11"):
            self.assertIn("  %s\n" % line, said)

    def test_a_thread_that_was_detached_is_not_joined(self):
        order = self.said(DETACHED).partition("\nthe order:\n")[2]
        self.assertNotIn("joins", order)
        self.assertRegex(order, r"\n +detaches +thread 1 +main, prog.c:7\n")
        self.assertRegex(order, r"\n +answers +pthread_join: EINVAL +main, prog.c:8\n")

    def test_only_what_is_told_of_a_story_that_repeats_is_always_shown(self):
        """Of 80 turns no more than 24, and those of the one round that is told."""
        why, order = self.said(ROUNDS).partition("\nwhy:\n")[2].split("\nthe order:\n")
        self.assertIn(", and 39 times more", why)
        self.assertLessEqual(len(re.findall(r"(?m)^  thread ", order)), 26)
        self.assertRegex(order, r"\n  \.\. 5\d more turns\n")

    def test_a_stack_that_is_gone(self):
        said = self.said(GONE)
        self.assertRegex(said, r"finds: a stack that is gone, of thread 1 = 00000005 \(commit \d+, main, prog.c:13\), which it has stored \(commit \d+, "
                               r"main, prog.c:12\)\n")
        self.assertRegex(said, r"\n +stores +a stack, [0-9A-F]{8} +00000003 over \w+ +works, prog.c:4\n")
        self.assertRegex(said, r"\n +stores +a stack that is gone, of thread 1 +00000005 over \w+ +main, prog.c:12\n")

    def test_a_call_that_has_returned(self):
        self.assertRegex(self.said(UNWOUND), r"\n +stores +a stack that is gone, of thread 1 +00000005 over 00000003 +main, prog.c:16\n")

    def test_eight_uses_of_freed_blocks_are_told(self):
        why = self.said(MANY_USES).partition("\nwhy:\n")[2].partition("\n\n")[0].splitlines()
        self.assertEqual(sum("stores to the block" in line for line in why), 8)
        self.assertIn("  4 more uses of blocks like these", why)

    def test_what_a_function_of_the_library_has_found_and_stored(self):
        self.assertRegex(self.said(COMPARED), r"finds: name(\[\d\])? = \w+ \(commit \d+, strcmp, called from main, prog.c:11\), which thread 1 has "
                                              r"stored \(commit \d+, strncpy, called from names, prog.c:6\)\n")

    def test_calls_of_functions_that_keep_something_for_all_threads(self):
        order = self.said(CUT).partition("\nthe order:\n")[2]
        self.assertEqual(len(re.findall(r"\n +calls +strtok\(texts\S*\) +cuts, prog.c:6\n", order)), 2)
        self.assertEqual(len(re.findall(r"\n +calls +strtok\(\.\.\) +cuts, prog.c:7\n", order)), 2)

    def test_calls_of_the_library_that_led_to_a_wait(self):
        self.assertIn("  thread 1 waits: spins, prog.c:4\n", self.said(SPINS))

    def test_who_stored_one_byte_of_a_word(self):
        self.assertRegex(self.said(BYTES), r"finds: pair\[0\] = 03 \(commit \d+, main, prog.c:9\), which thread 1 has stored \(commit \d+, works, prog.c:3\)\n")


if __name__ == "__main__":
    unittest.main()
