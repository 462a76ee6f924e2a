"""One try: `Trier(campaign, folder).tried(setting, seed)` runs the plan with them and says how it ended, as a Result.

A run whose threads are live when its events are over is tried again with four times as many, up to a limit: the run is the same
and goes on, because the events of a seed don't depend on how many are drawn."""

from collections import namedtuple
from pathlib import Path

from lib.conditions import read_condition
from lib.image import NotAnImage, read_image
from lib.judge import Differs
from lib.searching import Refused
from lib.symbols import Names, NoWord

from . import plans
from .ends import console_sum, ended_of, is_live, is_over, memory_of, rows_of, threads_text
from .enough import Enough, last_commit
from .hangs import Hangs
from .program import Failed, Runner, explained

GOOD, BAD, LIVE, HUNG = range(4)
OUTCOMES = ("good", "bad", "live", "hung")
TOLD = {"exit", "fault", "hang", "stuck", "word", "is", "has"}  # kinds of conditions that an account meets, or doesn't
MORE = 4  # times the events of the try before
EARLY, LEAST_EARLY = 16, 500  # a hang is looked for in a run of so many times fewer events first, if that are enough
CALLS = 3  # of a run that a signal ends

# What a campaign tries. program: the words that run it. plan: a Plan. settings: a list of dicts. bad: the texts of its
# conditions. most_events: up to which more are tried.
Campaign = namedtuple("Campaign", "program plan settings bad most_events")
# outcome: one of the four. events: how many were drawn, or 0 for a script. threads: their ends as text. console: its sum. log:
# the bytes of a bad or a hung run's log, which was walked; else None.
Result = namedtuple("Result", "outcome events commits threads console log")


def condition_of(campaign):
    """The condition that the texts mean; the image's symbols are their words."""
    sphere = campaign.plan.values["sphere"][campaign.plan.number]
    try:
        image = read_image(Path(sphere["image"]).read_bytes(), sphere["memory"])
        condition = read_condition(campaign.bad, Names(image))
    except OSError as error:
        raise Refused("%s: %s" % (error.filename, error.strerror)) from None
    except (KeyError, TypeError):
        raise Refused("refused plan 3") from None
    except NotAnImage as error:
        raise Refused("refused image %d %d" % (campaign.plan.number, *error.args)) from None
    except NoWord as error:
        raise Refused("%s: %s" % error.args) from None
    check_kinds({atom.kind for case in condition for atom in case}, sphere)
    return image, condition


def check_kinds(kinds, sphere):
    """Refuses what an account, or that of the last part of a recording, doesn't tell."""
    if not kinds <= TOLD:
        raise Refused("an account tells how a run ended, and not what came before: search and shrink look at each moment")
    if "epoch" in sphere and kinds & {"is", "has"}:
        raise Refused("a recording in epochs doesn't keep the whole console: leave out epoch and keep")


class Trier:
    def __init__(self, campaign, folder):
        self.campaign, self.plan = campaign, campaign.plan
        self.sphere = self.plan.values["sphere"][self.plan.number]
        self.image, self.condition = condition_of(campaign)
        self.rows = rows_of(self.condition)
        self.runner = Runner(campaign.program, folder)
        self.early = None  # a Runner too, from the first hang on
        self.early_run = None, b""  # of what its last run was, and the account
        self.hangs = Hangs(self.sphere, self.image, self.plan.values.get("input"), self.runner)
        self.has_library = Names(self.image).has("__library_code")
        self.enough, self.texts = Enough(), {}

    def tried(self, number, seed):
        """The Result of a seed with the setting of this number."""
        events = plans.events_of(self.plan, self.campaign.settings[number])
        result = self.tried_short(number, seed, events)
        while result is None:
            result = self.tried_once(number, seed, events)
            events = self.more(events)
        return result

    def more(self, events):
        return min(max(events or 0, 1) * MORE, self.campaign.most_events)

    def tried_short(self, number, seed, events):
        """The Result that all events would have, by a run with as many as were enough so far; None if all are needed."""
        few = self.enough.first(number, events)
        if few is None:
            return None
        account = self.run(number, seed, few)
        ended = ended_of(account, self.rows)
        if is_over(account, ended):
            result = self.ended(number, seed, few, ended)
            return result._replace(events=events)
        return self.tried_early(number, seed, events, account, few) if is_live(ended) else None

    def ended(self, number, seed, events, ended):
        """The Result of a run all of whose threads have ended."""
        if ended.meets(self.condition, True):
            return self.found(BAD, number, seed, events, ended)
        return result_of(GOOD, events, ended)

    def tried_once(self, number, seed, events):
        """None if it is to be tried with more events."""
        account = self.run(number, seed, events)
        ended = ended_of(account, self.rows)
        if not is_live(ended):
            if self.enough.wants(number, events):
                self.enough.look(number, self.runner.read("report"), self.plan.number)
            return self.ended(number, seed, events, ended)
        if ended.meets(self.condition, False):
            return self.found(BAD, number, seed, events, ended)
        return (self.tried_early(number, seed, events, account) or self.tried_live(number, seed, events, ended)
                or self.tried_early(number, seed, self.more(events), account, events))

    def tried_early(self, number, seed, events, account, few=None):
        """The Result of a run that had come to its hang after a few of its events: nothing in the memory has changed since. It has
        these events, and the log that is short. The account is that of the run with all events; or with `few` of them, and then
        the hang must be for ever."""
        early = (events or 0) // EARLY
        if early < LEAST_EARLY or (few and max(early, few) < 2 * min(early, few)):
            return None
        known = self.early_account(number, seed, early)
        if memory_of(known) != memory_of(account):
            return None
        hang = self.hangs.of(self.early.read("log"), known, seed)
        if not hang or not hang.is_own or (few and not (hang.is_for_ever and not hang.ended.meets(self.condition, False))):
            return None
        return self.stopped(early, hang)

    def early_account(self, number, seed, events):
        """The account of a run whose log is then in the folder of the early ones."""
        if self.early is None:
            folder = Path(self.runner.folder) / "early"
            folder.mkdir()
            self.early = Runner(self.campaign.program, folder)
        if self.early_run[0] != (number, seed, events):
            self.early_run = None, b""
            self.early_run = (number, seed, events), self.run(number, seed, events, True, self.early)
        return self.early_run[1]

    def outcome(self, hang):
        """With the library of delorean-cc only thread 0 lasts as long as its program, so others may be left waiting."""
        if hang.ended.meets(self.condition, True):
            return BAD
        return GOOD if self.has_library and hang.ended.threads[0][0] != "live" else HUNG

    def stopped(self, events, hang):
        """The Result of a run with which no thread goes on."""
        outcome = self.outcome(hang)
        return result_of(outcome, events, hang.ended, None if outcome == GOOD else hang.log)

    def tried_live(self, number, seed, events, ended):
        can_go_on = events is not None and events < self.campaign.most_events
        if can_go_on and events == plans.events_of(self.plan, self.campaign.settings[number]) and self.commits_late(events):
            return None
        hang = self.hang(number, seed, events)
        if hang and (hang.is_own or not can_go_on and self.outcome(hang) != GOOD):
            hang.ended.commits = ended.commits
            return self.stopped(events, hang)
        return None if can_go_on else result_of(LIVE, events, ended)

    # ------------------------------------------------------------ runs

    def run(self, number, seed, events, whole=False, runner=None):
        """The account of the judged sphere."""
        runner = runner or self.runner
        text = self.text(number, events, whole, runner.folder)
        for _ in range(CALLS):
            ran = runner.run("seed = %d\n%s" % (seed, text))
            if ran.status == 0:
                return runner.read("account")
            if ran.status > 1:
                break
        if ran.status == 1:
            return runner.read("account")
        raise Failed(explained(ran, "run", runner.path("plan")).replace(runner.path("plan"), "the plan"))

    def text(self, number, events, whole, folder):
        """The plan of a try, except its seed."""
        key = number, events, whole, folder
        if key not in self.texts:
            if len(self.texts) > 1000:
                self.texts.clear()
            values = plans.tried(self.plan, self.campaign.settings[number], events, folder, whole)
            self.texts[key] = plans.toml(values)
        return self.texts[key]

    def commits_late(self, events):
        """Whether any commit of the sphere came in the second half of the events: if not, more of them bring none."""
        last = last_commit(self.runner.read("report"), self.plan.number)
        return last is not None and last >= events // 2

    def whole_run(self, number, seed, events):
        """The log and the account of a run that has just been done; if it was recorded in epochs, it is done again without."""
        if "epoch" in self.sphere:
            self.run(number, seed, events, whole=True)
        return self.runner.read("log"), self.runner.read("account")

    def found(self, outcome, number, seed, events, ended):
        """The Result with its log, whose walk must have the run's account."""
        log, account = self.whole_run(number, seed, events)
        if self.runner.walk(self.sphere["image"], self.sphere["memory"], self.runner.path("log")) != account:
            raise Differs("the walk of the log has another account than the run")
        if not ended_of(account, self.rows).meets(self.condition, not is_live(ended)):
            raise Differs("the whole recording doesn't end so")
        return result_of(outcome, events, ended, log)

    def hang(self, number, seed, events):
        return self.hangs.of(*self.whole_run(number, seed, events), seed)


def result_of(outcome, events, ended, log=None):
    return Result(outcome, events or 0, ended.commits, threads_text(ended), console_sum(ended), log)
