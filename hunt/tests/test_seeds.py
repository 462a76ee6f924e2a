"""Campaigns find what the seeds have, each seed once, however many work at it; and what they keep was walked."""

import contextlib
import os
import re
import shutil
import signal
import subprocess
import sys
import unittest
from pathlib import Path
from unittest import mock

import support
from campaign import enough
from campaign.conduct import FILES
from campaign.plans import read_plan
from campaign.program import find_program
from campaign.store import NAME, Store
from campaign.trying import BAD, Campaign, Trier
from campaigns import COUNT_IS_WRONG, HAS_COMPILER, IMAGES, NO_COMPILER, NOT_BUILT, RACE, SEEDS, SLEEP, Scratch, rows_in, said
from killing import kill_and_resume
from lib.account import program

BAD_SEEDS = [3, 9, 51]  # of the race's plan, up to 51, as a loop over `delorean run` finds them


@unittest.skipUnless(support.can_walk(), NOT_BUILT)
class Campaigns(Scratch):
    def kept(self, folder="kept"):
        """The rows of a campaign: setting, seed, outcome, events, threads."""
        return [(*row[:4], row[5]) for row in rows_in(folder)]

    def test_race(self):
        self.copy(RACE / "plan.toml", RACE / "race.elf")
        before = sorted(os.listdir())
        status, text = said("plan.toml", "--bad", COUNT_IS_WRONG, "--seeds", "1-51", "--jobs", 2, "--keep", "kept")
        self.assertEqual(status, 0, text)
        self.assertIn("51 tries: 48 good, 3 bad, 0 live, 0 hung\n", text)
        self.assertEqual(re.findall(r"seed (\d+): bad", text), list(map(str, BAD_SEEDS)))
        self.assertEqual(sorted(os.listdir()), sorted([*before, "kept"]))
        names = ["seed-%d.%s" % (seed, end) for seed in BAD_SEEDS for end in ("log", "toml")]
        self.assertEqual(sorted(os.listdir("kept")), sorted([NAME, *names]))
        self.assertEqual([row[1] for row in self.kept()], list(range(1, 52)))
        self.assertEqual(Path("kept/seed-3.log").read_bytes(), (RACE / "expected/race.log").read_bytes())

    def test_find_comes_again_by_its_plan(self):
        self.copy(RACE / "plan.toml", RACE / "race.elf")
        said("plan.toml", "--bad", COUNT_IS_WRONG, "--seeds", "3", "--keep", "kept")
        subprocess.run([*program(), "run", "kept/seed-3.toml"], check=True, stdout=subprocess.DEVNULL)
        self.assertEqual(Path("race.log").read_bytes(), Path("kept/seed-3.log").read_bytes())
        self.assertEqual(Path("a.txt").read_bytes(), (RACE / "expected/a.txt").read_bytes())

    def test_log_of_a_recording_in_epochs_is_whole(self):
        self.copy(RACE / "plan.toml", RACE / "race.elf", role='"record"\nversion = 2\nepoch = 4\nkeep = 2')
        _, text = said("plan.toml", "--bad", COUNT_IS_WRONG, "--seeds", "2-3", "--keep", "kept")
        self.assertIn("2 tries: 1 good, 1 bad, 0 live, 0 hung\n", text)
        walk = subprocess.run([*program(), "walk", "race.elf", "4096", "kept/seed-3.log"], stdout=subprocess.PIPE).stdout
        self.assertEqual(walk, (RACE / "expected/a.txt").read_bytes())
        subprocess.run([*program(), "run", "kept/seed-3.toml"], check=True, stdout=subprocess.DEVNULL)
        self.assertEqual(Path("race.log").read_bytes(), Path("kept/seed-3.log").read_bytes())

    def test_stops_after_the_first_of_the_order(self):
        self.copy(RACE / "plan.toml", RACE / "race.elf")
        for jobs in 1, 3:
            folder = "kept-%d" % jobs
            status, text = said("plan.toml", "--bad", COUNT_IS_WRONG, "--jobs", jobs, "--stop-after", 2, "--keep", folder)
            self.assertIn("9 tries: 7 good, 2 bad", text)
            self.assertEqual([row[1] for row in self.kept(folder)], list(range(1, 10)))

    def test_more_events_where_there_are_too_few(self):
        self.copy(RACE / "plan.toml", RACE / "race.elf", events=3000)
        _, text = said("plan.toml", "--bad", COUNT_IS_WRONG, "--seeds", "1-3", "--keep", "kept")
        self.assertIn("3 tries: 2 good, 1 bad, 0 live, 0 hung\n", text)
        self.assertEqual({row[3] for row in self.kept()}, {12000})
        status, text = said("plan.toml", "--bad", COUNT_IS_WRONG, "--seeds", "1-3", "--most-events", 3000)
        self.assertEqual(status, 1)
        self.assertIn("3 tries: 0 good, 0 bad, 3 live, 0 hung\n", text)

    @unittest.skipUnless(HAS_COMPILER, NO_COMPILER)
    def test_hang(self):
        self.copy(SLEEP / "plan.toml", SLEEP / "sleep.elf")
        status, text = said("plan.toml", "--bad", "hang", "--seeds", "38-39", "--keep", "kept")
        self.assertIn("2 tries: 1 good, 1 bad, 0 live, 0 hung\n", text)
        status, text = said("plan.toml", "--bad", "exit any = 99", "--seeds", "38-39")
        self.assertEqual(status, 1)
        self.assertIn("2 tries: 1 good, 0 bad, 0 live, 1 hung\n", text)

    @unittest.skipUnless(HAS_COMPILER, NO_COMPILER)
    def test_thread_that_the_library_keeps(self):
        """A program of delorean-cc is over with `main`. In parks.elf, which is sdk/examples/reorder5.c, the library keeps thread 5 for
        later ones; in deadlock.elf `main` itself waits for ever. A search, too, finds a `hang` of the first, and no `hang 0`."""
        plan = "plan.toml", "--seeds", "1-6", "--jobs", 1
        for image, condition, counts in (("parks.elf", "exit any != 0", "6 good, 0 bad, 0 live, 0 hung"),
                                         ("parks.elf", "hang 0", "6 good, 0 bad, 0 live, 0 hung"),
                                         ("parks.elf", "hang", "0 good, 6 bad, 0 live, 0 hung"),
                                         ("deadlock.elf", "exit any != 0", "4 good, 0 bad, 0 live, 2 hung"),
                                         ("deadlock.elf", "hang 0", "4 good, 2 bad, 0 live, 0 hung")):
            self.copy(RACE / "plan.toml", IMAGES / image, image='"%s"' % image, memory=86016, events=50_000)
            with self.subTest((image, condition)):
                self.assertIn("6 tries: " + counts, said(*plan, "--bad", condition)[1])
        # After 10,000 events `main` isn't over, by the account of `delorean run`. The engine would go on with it to its end.
        self.copy(RACE / "plan.toml", image='"parks.elf"', memory=86016, events=10_000)
        self.assertIn("1 try: 0 good, 0 bad, 1 live, 0 hung", said("plan.toml", "--seeds", 1, "--most-events", 10_000, "--bad", "fault")[1])

    @unittest.skipUnless(HAS_COMPILER, NO_COMPILER)
    def test_hang_that_comes_early(self):
        """The run has come to it after a few of many events; these are what is kept, with a log that its plan records again."""
        self.copy(SLEEP / "plan.toml", SLEEP / "sleep.elf", events=400_000)
        _, text = said("plan.toml", "--bad", "hang", "--seeds", "38-39", "--keep", "kept")
        self.assertIn("2 tries: 1 good, 1 bad, 0 live, 0 hung\n", text)
        self.assertEqual([row[3] for row in self.kept()], [400_000, 25_000])
        subprocess.run([*program(), "run", "kept/seed-39.toml"], check=True, stdout=subprocess.DEVNULL)
        self.assertEqual(Path("sleep.log").read_bytes(), Path("kept/seed-39.log").read_bytes())

    @unittest.skipUnless(HAS_COMPILER, NO_COMPILER)
    def test_hang_needs_no_more_events(self):
        """Its loops were walked, so a run with four times as many events wouldn't tell more."""
        self.copy(SLEEP / "plan.toml", SLEEP / "sleep.elf", events=100_000)
        plan = read_plan("plan.toml")
        with mock.patch.dict(os.environ, DELOREAN=" ".join(program())):
            trier = Trier(Campaign(find_program(), plan, [{}], ["hang"], 1_600_000), self.folder)
            with mock.patch.object(trier, "run", wraps=trier.run) as run:
                result = trier.tried(0, 39)
        self.assertEqual((result.outcome, result.events), (BAD, 25_000))
        self.assertEqual([call.args[2] for call in run.call_args_list], [100_000, 6_250, 25_000])

    @unittest.skipUnless(HAS_COMPILER, NO_COMPILER)
    def test_fewer_events_where_they_are_enough(self):
        """A campaign has the same tries and logs, whether it begins them with fewer events or not; hangs are among them."""
        self.copy(SLEEP / "plan.toml", SLEEP / "sleep.elf", events=400_000)
        for folder, looks in (("fewer", 2), ("all", 1000)):
            with mock.patch.object(enough, "LOOKS", looks):
                said("plan.toml", "--bad", "hang", "--seeds", "36-42", "--jobs", 1, "--keep", folder)
        self.assertEqual(self.kept("fewer"), self.kept("all"))
        self.assertEqual(rows_in("fewer"), rows_in("all"))
        self.assertIn((39, "bad", 25_000), [row[1:4] for row in self.kept("fewer")])
        for name in os.listdir("all"):
            if name != NAME:
                self.assertEqual(Path("fewer", name).read_bytes(), Path("all", name).read_bytes(), name)

    def test_varied(self):
        self.copy(RACE / "plan.toml", RACE / "race.elf")
        varied = "--vary", "chunk=16,32", "--vary", "depth=1-2"
        said("plan.toml", "--bad", COUNT_IS_WRONG, "--seeds", "1-3", *varied, "--keep", "kept")
        names = ["chunk=%d depth=%d" % (chunk, depth) for chunk in (16, 32) for depth in (1, 2)]
        self.assertEqual([row[:2] for row in self.kept()], [(name, seed) for seed in (1, 2, 3) for name in names])
        self.assertIn(("chunk=32 depth=1", 3, "bad", 12000, "ended:16 ended:0 ended:1"), self.kept())

    def test_walk_that_says_otherwise(self):
        self.copy(RACE / "plan.toml", RACE / "race.elf")
        status, text = self.said_by_liar("plan.toml", "--bad", COUNT_IS_WRONG, "--seeds", "1-3", "--keep", "kept")
        self.assertEqual(status, 3, text)
        self.assertIn("seeds: seed 3: the walk of the log has another account than the run\n", text)
        self.assertEqual((os.listdir("kept"), [row[1] for row in self.kept()]), ([NAME], [1, 2]))

    @unittest.skipUnless(HAS_COMPILER, NO_COMPILER)
    def test_walk_of_a_hang_that_says_otherwise(self):
        self.copy(SLEEP / "plan.toml", SLEEP / "sleep.elf", events=400_000)
        status, text = self.said_by_liar("plan.toml", "--bad", "hang", "--seeds", "39", "--keep", "kept")
        self.assertEqual((status, text.startswith("seeds: seed 39: the walk of the log has another account")), (3, True), text)

    def said_by_liar(self, *words):
        """What the command says with a program whose walks say that nothing was done."""
        liar = self.folder / "liar"
        liar.write_text('#!/bin/sh\n[ "$1" != walk ] || { echo "end complete 0"; exit; }\nexec %s "$@"\n' % " ".join(program()))
        liar.chmod(0o755)
        with mock.patch.dict(os.environ, DELOREAN=str(liar)):
            return said(*words)

    def test_goes_on(self):
        self.copy(RACE / "plan.toml", RACE / "race.elf")
        words = "plan.toml", "--bad", COUNT_IS_WRONG, "--keep", "kept"
        said(*words, "--seeds", "1-5")
        status, text = said(*words, "--seeds", "1-9")
        self.assertEqual((status, text), (2, "seeds: kept has a campaign: go on with it by --resume, or take another folder\n"))
        status, text = said(*words, "--seeds", "1-9", "--resume")
        self.assertIn("\n4 tries: 3 good, 1 bad, 0 live, 0 hung\nwith those of before: 9 tries: 7 good, 2 bad, ", text)
        status, text = said("plan.toml", "--bad", "fault", "--keep", "kept", "--resume")
        self.assertEqual((status, text), (2, "seeds: the campaign in kept has other conditions\n"))

    def test_stopped(self):
        self.copy(RACE / "plan.toml", RACE / "race.elf")
        words = "plan.toml", "--bad", COUNT_IS_WRONG, "--seeds", "1-100000", "--keep", "kept", "--jobs", "2"
        with subprocess.Popen([sys.executable, SEEDS, *words], stdout=subprocess.PIPE, text=True) as command:
            self.assertIn("seed 3: bad", command.stdout.readline())
            command.send_signal(signal.SIGINT)
            text = command.stdout.read()
        self.assertEqual(command.returncode, 130, text)
        done = len(self.kept())
        self.assertIn("%d tries: " % done, text)
        self.assertIn("stopped; --resume goes on from here\n", text)
        self.assertGreaterEqual(done, 3)

    def test_refused(self):
        self.copy(RACE / "plan.toml", RACE / "race.elf")
        for words, why in (
                (("absent.toml", "--bad", "fault"), "absent.toml: No such file or directory"),
                (("plan.toml", "--bad", "none"), "`none` is no condition"),
                (("plan.toml", "--bad", "word nowhere = 1"), "nowhere"),
                (("plan.toml", "--bad", "ever word counter = 3"), "an account tells how a run ended"),
                (("plan.toml", "--bad", "fault", "--vary", "chunk=5000", "--seeds", "7"), "seed 7, chunk=5000: refused plan 8"),
                (("plan.toml", "--bad", "fault", "--vary", "chunk=8"),
                 "seed 1, chunk=8: refused plan 4: the plan, line 3: `chunk` is 8, but it has to be 16"),
                (("plan.toml", "--bad", "fault", "--sphere", "1"), "sphere 1 of the plan isn't recorded"),
                (("plan.toml", "--bad", "fault", "--resume"), "--resume needs --keep, the folder of the campaign"),
                (("plan.toml", "--bad", "fault", "--slurm", "x"), "--slurm needs --keep, the folder of the campaign"),
                (("plan.toml", "--bad", "fault", "--keep", "k", "--slurm", "x", "--stop-after", "1"),
                 "--slurm and --stop-after don't go together")):
            status, text = said(*words)
            self.assertEqual(status, 2, words)
            self.assertIn("seeds: ", text)
            self.assertIn(why, text)


@unittest.skipUnless(support.can_walk(), NOT_BUILT)
class Killed(Scratch):
    """checks/seeds-killed does the same for longer."""

    TIMES, SECONDS, LAST = 4, (0.1, 0.4), 300

    def test_no_seed_is_lost_or_twice(self):
        self.copy(RACE / "plan.toml", RACE / "race.elf")
        words = "plan.toml", "--bad", "exit 0 = 0", "--bad", COUNT_IS_WRONG, "--seeds", "1-%d" % self.LAST, "--jobs", 2
        errors, killed = kill_and_resume([*words, "--keep", "killed"], self.TIMES, self.SECONDS)
        self.assertEqual(errors, "")
        self.assertGreater(killed, 0)
        said(*words, "--keep", "whole")
        self.assertEqual([row[1] for row in rows_in("killed")], list(range(1, self.LAST + 1)))
        self.assertEqual(rows_in("killed"), rows_in("whole"))
        self.assertEqual(self.finds("killed"), self.finds("whole"))
        self.assertEqual(sorted(os.listdir("killed")), sorted(os.listdir("whole")))
        print("killed %d times in its work, %d seeds, %d finds" % (killed, self.LAST, len(self.finds("killed"))))

    def finds(self, folder):
        """The logs of a campaign, in the order of their seeds; the first ones are in its folder too."""
        with contextlib.closing(Store("%s/%s" % (folder, NAME))) as store:
            logs = dict(store.base.execute("select seed, log from find order by seed"))
        for seed, log in list(logs.items())[:FILES]:
            self.assertEqual(Path("%s/seed-%d.log" % (folder, seed)).read_bytes(), log)
        self.assertEqual(set(logs), {row[1] for row in rows_in(folder) if row[2] == "bad"})
        return logs


# Two threads add 1 to the word 400 and then to the word 404, each by a load and a store with fourteen instructions between.
# Thread 0 ends with 1 if either is wrong at the end. So there are two bugs, which end alike.
TWO_BUGS = """
        addi x5, x0, 2
spawn:  addi x17, x0, 1
        addi x10, x0, work
        ecall
        addi x5, x5, -1
        bne x5, x0, spawn
        addi x6, x0, 1
wait:   addi x17, x0, 11
        addi x10, x6, 0
        ecall
        beq x10, x0, wait
        addi x6, x6, 1
        addi x7, x0, 3
        bne x6, x7, wait
        addi x5, x0, 2
        lw x6, 0x400(x0)
        lw x7, 0x404(x0)
        addi x10, x0, 1
        bne x5, x6, end
        bne x5, x7, end
        addi x10, x0, 0
end:    addi x17, x0, 0
        ecall
work:   lw x5, 0x400(x0)
        NOPS
        addi x5, x5, 1
        sw x5, 0x400(x0)
        lw x6, 0x404(x0)
        NOPS
        addi x6, x6, 1
        sw x6, 0x404(x0)
        addi x10, x0, 0
        jal x0, end
""".replace("NOPS", "\n".join(["addi x0, x0, 0"] * 14))


@unittest.skipUnless(support.can_walk() and HAS_COMPILER, NO_COMPILER)
class Reports(Scratch):
    def test_two_bugs(self):
        Path("two.s").write_text(TWO_BUGS)
        subprocess.run([*program(), "asm", "two.s", "race.elf"], check=True, stdout=subprocess.DEVNULL)
        self.copy(RACE / "plan.toml", chunk=16)
        said("plan.toml", "--bad", COUNT_IS_WRONG, "--seeds", "1-30", "--keep", "kept")
        text = said("report", "kept")[1]
        self.assertIn("\n2 bugs among ", text)
        # `work` is at 5C, after 23 instructions; each store is 16 instructions after its load.
        self.assertIn("\n  a thread is left before 0000009C, 00000400\n", text)
        self.assertIn("\n  a thread is left before 000000E0, 00000404\n", text)
        self.assertEqual(len(re.findall(r"kept/bug-[12].log: .* 1 forced; walked", text)), 2, text)

    def test_hung_runs(self):
        self.copy(SLEEP / "plan.toml", SLEEP / "sleep.elf")
        said("plan.toml", "--bad", "fault", "--seeds", "38-39", "--keep", "kept")
        status, text = said("report", "kept", "--seconds", 0)
        self.assertIn("seeds 38 to 39: 2 tries, 1 good, 0 bad, 0 live, 1 hung\n", text)
        self.assertIn("\nno run was bad; so, with 95%, at most 65.8% of runs are\n", text)
        self.assertIn("\n1 run hung, which isn't counted as bad here; with --bad hang it is\n", text)

    def test_one_bug_with_several_ends(self):
        self.copy(RACE / "plan.toml", RACE / "race.elf")
        said("plan.toml", "--bad", COUNT_IS_WRONG, "--seeds", "3-9", "--keep", "kept")
        status, text = said("report", "kept")
        self.assertEqual(status, 0)
        self.assertIn("seeds 3 to 9: 7 tries, 5 good, 2 bad, 0 live, 0 hung\n", text)
        self.assertIn("\n1 bug among 2 finds\nbug 1, bad: 2 finds, ", text)
        self.assertIn("ended:16 ended:0 ended:1: 1\n", text)
        self.assertIn("ended:18 ended:0 ended:1: 1\n", text)


@unittest.skipUnless(support.can_walk(), NOT_BUILT)
class Joins(Scratch):
    def tried(self, seeds, folder, bad=COUNT_IS_WRONG):
        said("plan.toml", "--bad", bad, "--seeds", seeds, "--keep", folder)

    def test_joined(self):
        self.copy(RACE / "plan.toml", RACE / "race.elf")
        self.tried("1-4", "a")
        self.tried("3-9", "b")
        self.assertEqual(said("join", "c", "a", "b"), (0, "9 tries: 7 good, 2 bad, 0 live, 0 hung\n"))
        self.assertTrue(Path("c/seed-3.log").is_file() and Path("c/seed-9.toml").is_file())
        self.tried("1-9", "whole")
        self.assertEqual(rows_in("c"), rows_in("whole"))
        self.assertEqual(said("join", "c", "a")[1], "9 tries: 7 good, 2 bad, 0 live, 0 hung\n")

    def test_not_joined(self):
        self.copy(RACE / "plan.toml", RACE / "race.elf")
        self.tried("3", "a")
        self.tried("3", "b", "fault")
        self.assertEqual(said("join", "a", "b"), (2, "seeds join: the campaign in a has other conditions\n"))
        self.assertEqual(said("join", "a", "none"), (2, "seeds join: none has no campaign\n"))
        shutil.copytree("a", "c")
        store = Store("c/" + NAME)
        store.base.execute("update try set commits = 35")
        store.close()
        self.assertEqual(said("join", "a", "c"), (2, "seeds join: seed 3 ended otherwise in the other campaign\n"))
        self.assertEqual(rows_in("a")[0][4], 36)


@unittest.skipUnless(support.can_walk() and HAS_COMPILER, NO_COMPILER)
class Guide(Scratch):
    """What seeds.md shows in examples/race comes out. Source lines are there only with pyelftools, and are passed over."""

    def test_commands(self):
        self.copy(RACE / "plan.toml", RACE / "race.elf")
        text = (support.TOP / "hunt/seeds.md").read_text()
        blocks = re.findall(r"(?:^    .*\n|^\n(?=    ))+", text, re.M)
        shown = [part for block in blocks for part in re.split(r"^    \$ ", block, flags=re.M)[1:]]
        self.assertEqual(len(shown), 4)
        for part in shown:
            command, _, output = part.partition("\n")
            lines = [line.removeprefix("    ") for line in output.rstrip("\n").split("\n")]
            with self.subTest(command):
                self.assertEqual(self.compared(self.printed(command)), self.compared(lines))

    def printed(self, command):
        script = 'delorean() { %s "$@"; }\n%s\n' % (" ".join(program()), command.replace("../../hunt", str(support.TOP / "hunt")))
        return subprocess.run(["sh", "-c", script], capture_output=True, text=True).stdout.rstrip("\n").split("\n")

    @staticmethod
    def compared(lines):
        return [re.sub(r"(a thread is left before \w+), .*", r"\1", line) for line in lines]


if __name__ == "__main__":
    unittest.main()
