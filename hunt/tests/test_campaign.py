"""The parts of campaigns: plans of tries, ends, the order of batches, what comes from other machines, rates."""

import contextlib
import io
import random
import re
import tomllib
import unittest
from pathlib import Path
from unittest import mock

import support
from campaign import far, machines, plans, rates
from campaign.conduct import Conductor, Keeping, Stop
from campaign.enough import LOOKS, Enough, last_commit
from campaign.ends import console_sum, ended_of, threads_text
from campaign.identity import Identity
from campaign.pool import Done
from campaign.program import Failed
from campaign.progress import Progress
from campaign.trying import Campaign, Result
from campaign.work import Ordered, Work
from campaigns import RACE, Scratch, rows_in
from lib.conditions import Ended
from lib.searching import Refused


class Plans(Scratch):
    def test_ranges(self):
        self.assertEqual(plans.read_range("1-4", "x"), range(1, 5))
        self.assertEqual(plans.read_range("7", "x"), range(7, 8))
        for wrong in ("", "4-1", "-1", "1-", "a", "1-2-3", "9223372036854775808"):
            with self.assertRaises(Refused, msg=wrong):
                plans.read_range(wrong, "x")

    def test_settings(self):
        varied = plans.read_varied(["chunk=16,32", "cores=1-3"])
        names = [plans.setting_name(setting) for setting in plans.settings_of(varied)]
        self.assertEqual(names, ["chunk=%d cores=%d" % (chunk, cores) for chunk in (16, 32) for cores in (1, 2, 3)])
        self.assertEqual(plans.settings_of([]), [{}])
        for wrong in (["speed=1"], ["chunk=1", "chunk=2"], ["chunk="], ["seed=1-400000"], ["events=1-400000"]):
            with self.assertRaises(Refused, msg=wrong):
                plans.settings_of(plans.read_varied(wrong))

    def test_no_name_of_the_plan_is_written(self):
        self.copy(RACE / "plan.toml")
        plan = plans.read_plan("plan.toml")
        text = plans.toml(plans.tried(plan, {"chunk": 16}, 500, "/there"))
        self.assertEqual(sorted(re.findall(r'"(.*)"', text)),
                         ["/there/account", "/there/log", "/there/report", "order-size", "race.elf", "record"])
        self.assertIn("chunk = 16\n", text)
        self.assertIn("events = 500\n", text)

    def test_text_is_read_as_it_was(self):
        Path("odd.toml").write_text('a = "x\\"\\\\\\n\\u0001"\n"k k" = 1\n[[sphere]]\nrole = "record"\nimage = "ä.elf"\n')
        values = plans.read_plan("odd.toml").values
        self.assertEqual(tomllib.loads(plans.toml(values)), values)

    def test_plan_that_records_nothing(self):
        Path("plain.toml").write_text('cores = 1\n[[sphere]]\nrole = "plain"\n')
        with self.assertRaisesRegex(Refused, "no sphere of the plan is recorded"):
            plans.read_plan("plain.toml")


class Ends(unittest.TestCase):
    def test_as_the_whole_account_tells(self):
        for recorded in support.recorded():
            account = recorded.account.read_bytes()
            whole = Ended(account)
            if not whole.is_complete:
                continue
            ended = ended_of(account, sorted(whole.rows))
            self.assertEqual((ended.threads, ended.console, ended.rows, ended.commits, True),
                             (whole.threads, whole.console, whole.rows, whole.commits, ended.is_complete), recorded.name)
            self.assertEqual(bool(console_sum(ended)), bool(whole.console))
            self.assertEqual(len(threads_text(ended).split()), len(whole.threads))


class Events(unittest.TestCase):
    REPORT = b"events 9000\ng 700 0 0 chunk 16\ng 900 0 1 exit 0\ng 950 1 0 chunk 3\nend\n"

    def test_last_commit(self):
        self.assertEqual([last_commit(self.REPORT, sphere) for sphere in (0, 1, 2)], [900, 950, None])

    def test_first_events(self):
        """With twice as many as were needed, if that saves half."""
        enough = Enough()
        for _ in range(LOOKS - 1):
            enough.look(0, self.REPORT, 0)
        self.assertEqual((enough.wants(0, 3999), enough.first(0, 9000)), (True, None))
        enough.look(0, self.REPORT.replace(b"g 900", b"g 1000"), 0)
        self.assertEqual([enough.wants(0, 3999), enough.wants(0, 4000), enough.wants(1, 3999)], [False, True, True])
        self.assertEqual([enough.first(0, events) for events in (9000, 4000, 3999, None)], [2000, 2000, None, None])
        self.assertIsNone(enough.first(1, 9000))


class Orders(unittest.TestCase):
    def test_what_comes_late_is_waited_for(self):
        ordered = Ordered()
        ordered.put(1, "b")
        self.assertEqual(list(ordered.ready()), [])
        ordered.put(0, "a")
        ordered.put(3, "d")
        self.assertEqual(list(ordered.ready()), ["a", "b"])
        self.assertEqual(list(ordered.rest()), ["d"])

    def test_work_leaves_out_what_was_done(self):
        class Had:
            def done(self, name, first, last):
                return {seed for seed in {"": {2, 3}, "x": {5}}[name] if first <= seed <= last}

        work = Work(range(1, 6), ["", "x"], Had())
        self.assertEqual(work.take(3), [(0, 1), (1, 1), (1, 2)])
        self.assertEqual(work.take(100), [(1, 3), (0, 4), (1, 4), (0, 5)])
        self.assertEqual(work.take(1), [])


class OtherMachines(unittest.TestCase):
    def test_numbers(self):
        for numbers, text in (([0], "0"), ([0, 1, 2, 5], "0-2,5"), ([3, 4, 9, 10, 12], "3-4,9-10,12")):
            self.assertEqual((far.ranges_of(numbers), far.numbers_of(text)), (text, numbers))

    def test_lines(self):
        done = Done(7, [Result(1, 12000, 36, "ended:16", "", b"DLRN\0"), Result(0, 0, 3, "", "ab", None)], None)
        line = far.line_of(7, done)
        self.assertEqual(far.read_line(line), done)
        for wrong in (line[:-1], line[:20], "", line.replace(" 7 ", " "), line[:-9] + "A" + line[-8:]):
            self.assertIsNone(far.read_line(wrong), wrong)
        failed = far.read_line(far.line_of(8, Done(8, [], Failed("refused plan 4"))))
        self.assertEqual((failed.results, type(failed.failure), str(failed.failure)), ([], Failed, "refused plan 4"))

    def test_logins(self):
        found = [(login.slots, login.command[-1]) for login in machines.read_logins(["4/me@host:22,:", "host-2"], [])]
        self.assertEqual(found, [(4, "me@host"), (None, "-c"), (None, "host-2")])
        for wrong in ("a b", "-v", "-oProxyCommand=x", "$(x)", "host;x", "x/host", ""):
            with self.assertRaises(Refused, msg=wrong):
                machines.read_logins([wrong], [])


class Cluster(machines.Machines):
    """Stands in for ten thousand workers behind GNU parallel: batches come back in any order, a third of them is lost with its
    worker, some come twice or cut off, and now and then parallel ends before its work does."""

    SECONDS, LEAST, MOST = 0.25, 3, 3

    def __init__(self, count, rng):
        self.workers, self.rng, self.checker = range(count), rng, self
        self.lost = self.twice = 0
        self.begin()

    def checked(self, tries, done):
        return done.results, done.failure

    def reach(self):
        pass

    def wait(self, seconds):
        if not self.given:
            self.given, self.waiting, self.process = self.waiting, [], mock.Mock()
            self.queue = self.rng.sample(self.given, len(self.given))
        taken, self.queue = self.queue[:2000], self.queue[2000:]
        done = self.received(b"".join(map(self.line, taken)))
        if not self.queue:
            self.end_round()
            self.given = []
        return done

    def line(self, number):
        chance = self.rng.random()
        results = [result_of_seed(setting, seed) for setting, seed in self.tries[number]]
        line = far.line_of(number, Done(number, results, None)).encode() + b"\n"
        if chance < 0.3:
            self.lost += 1
            return b"" if chance < 0.2 else line[: self.rng.randrange(len(line))] + b"\n"
        self.twice += chance > 0.9
        return line if chance < 0.9 else line + line


def result_of_seed(setting, seed):
    """What a simulated try comes to."""
    is_bad = seed % 100 == 7
    return Result(int(is_bad), 12000, seed % 90, "ended:%d" % setting, "", b"log %d %d" % (setting, seed) if is_bad else None)


class TenThousandWorkers(Scratch):
    LAST = 15_000

    def test_nothing_is_lost_or_twice(self):
        settings = [{"chunk": 16}, {"chunk": 32}]
        plan = plans.Plan({"sphere": [{}]}, 0, "")
        campaign = Campaign(["delorean"], plan, settings, [], 0)
        progress = Progress(2 * self.LAST)
        with contextlib.closing(Keeping("kept")) as keeping, contextlib.redirect_stdout(io.StringIO()):
            keeping.open(Identity("", "", "", "0", "[]", "0"), {}, False)
            keeping.keep = lambda *_: None
            cluster = Cluster(10_000, random.Random(3))
            Conductor(campaign, range(1, self.LAST + 1), keeping, progress, None, Stop()).conduct(cluster)
            rows = keeping.store.base.execute("select setting, seed, log from find")
            finds = {(setting, seed): log for setting, seed, log in rows}
        names = ["chunk=16", "chunk=32"]
        wanted = [(names[setting], seed, "bad" if seed % 100 == 7 else "good", 12000, seed % 90, "ended:%d" % setting, "")
                  for seed in range(1, self.LAST + 1) for setting in (0, 1)]
        self.assertEqual(rows_in("kept"), wanted)
        bad = [(setting, seed) for setting in (0, 1) for seed in range(7, self.LAST + 1, 100)]
        self.assertEqual(finds, {(setting + 1, seed): b"log %d %d" % (setting, seed) for setting, seed in bad})
        self.assertGreater(min(cluster.lost, cluster.twice), 1000)
        self.assertEqual(progress.counts, [2 * self.LAST - len(finds), len(finds), 0, 0])


class Rates(unittest.TestCase):
    def test_interval(self):
        # By hand: for 5 of 10 the middle is 1/2, and half the width 1.96 sqrt(2.5 + 0.9604) / 13.8415.
        intervals = ((5, 10), (0.2366, 0.7634)), ((0, 10), (0, 0.2775)), ((10, 10), (0.7225, 1)), ((0, 0), (0, 1))
        for (bad, tries), (low, high) in intervals:
            found = rates.wilson(bad, tries)
            self.assertAlmostEqual(found[0], low, 4)
            self.assertAlmostEqual(found[1], high, 4)

    def test_seeds_for_a_rate(self):
        # (1 - rate)^n is at most 0.05, and (1 - rate)^(n - 1) more than that: 0.5^5 = 0.031, 0.9^29 = 0.0471, 0.9^28 = 0.0523.
        for rate, seeds in ((0.5, 5), (0.1, 29), (1, 1), (0, None)):
            self.assertEqual(rates.seeds_for(rate), seeds)

    def test_values_of_several_settings(self):
        rows = [("chunk=16 depth=1", 10, 3), ("chunk=16 depth=2", 20, 1), ("chunk=32 depth=1", 30, 0)]
        self.assertEqual([rate[:3] for rate in rates.by_value(rows)],
                         [("chunk=16", 30, 4), ("chunk=32", 30, 0), ("depth=1", 40, 3), ("depth=2", 20, 1)])
        self.assertEqual([rate.name for rate in rates.by_setting(rows)], [rows[0][0], rows[1][0], rows[2][0]])
        alike = ["chunk=%d" % chunk for chunk in (16, 64, 128)]
        self.assertEqual([rate.name for rate in rates.by_setting([(name, 9, 0) for name in alike])], alike)


if __name__ == "__main__":
    unittest.main()
