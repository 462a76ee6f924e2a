"""Tries on other machines, by GNU parallel: `Machines(..)` is used like a Pool.

A machine gets a bundle once, by ssh, and then batches. parallel gives a batch whose machine has died to another one. What no
machine came to the end of is given again, in the next call of parallel."""

from collections import namedtuple
from concurrent.futures import ThreadPoolExecutor
import os
import re
import select
import shlex
import shutil
import subprocess
import sys
import tempfile

from lib.judge import Differs
from lib.searching import Refused

from .bundle import Bundle
from .ends import ended_of, is_live, rows_of, threads_text
from .far import ranges_of, read_line
from .pool import Done
from .program import Runner
from .trying import BAD, HUNG, condition_of

# A machine that doesn't answer for ten seconds is taken for dead. PARALLEL_SSH is parallel's own name for another command.
ALIVE = "-o ConnectTimeout=10 -o ServerAliveInterval=5 -o ServerAliveCountMax=2"
SSH = os.environ.get("PARALLEL_SSH") or "ssh -o BatchMode=yes " + ALIVE
RETRIES = 3      # of a batch, by parallel, each on a machine on which it hasn't failed
CALLS = 4        # of parallel, one after another, in which nothing is done
FIRST, LAST = 2, 32  # batches for each slot in the first round, and at most; each round has twice as many as the one before
FOLDER = "$HOME/.cache/delorean-seeds"
UNPACK = """set -e
folder={folder}/{sum}
if [ ! -d "$folder" ]; then
    mkdir -p "$folder.$$"
    tar -x -f - -C "$folder.$$"
    mv "$folder.$$" "$folder" 2>/dev/null || rm -rf "$folder.$$"
else
    cat >/dev/null
fi
python3 -c 'import tomllib' || {{ echo "there is no python3, or it is older than 3.11" >&2; exit 1; }}
status=0
"$folder/delorean" >/dev/null || status=$?
[ "$status" -eq 2 ] || {{ echo "the program doesn't run there" >&2; exit 1; }}
nproc
"""

# text: as parallel takes it. slots: runs at once, or None for as many as it has processors. command: the words of ssh.
Login = namedtuple("Login", "text slots command")


def read_logins(texts, files):
    """The Logins of --sshlogin and --sshloginfile: `[N/][USER@]HOST[:PORT]`, or `:` for this machine."""
    lines = [part for text in texts for part in text.split(",")]
    for file in files:
        try:
            with open(file) as opened:
                lines += opened.read().splitlines()
        except OSError as error:
            raise Refused("%s: %s" % (error.filename, error.strerror)) from None
    logins = [read_login(line.strip()) for line in lines if line.strip() and not line.strip().startswith("#")]
    if not logins:
        raise Refused("no machine is named")
    return logins


def read_login(text):
    match = re.fullmatch(r"(?:([0-9]{1,4})/)?(:|(?:[\w.-]+@)?\w[\w.-]*(?::([0-9]+))?)", text)
    if not match:
        raise Refused("--sshlogin %s isn't [N/][USER@]HOST[:PORT] or :" % text)
    slots, host, port = match[1] and int(match[1]), match[2], match[3]
    if host == ":":
        return Login(text, slots, ["sh", "-c"])
    words = [*shlex.split(SSH), *(["-p", port] if port else []), host.removesuffix(":%s" % port)]
    return Login(text, slots, words)


def prepare(login, bundle):
    """Copies the bundle to a machine if it isn't there. How many tries it does at once, and None; or why it can't be taken."""
    script = UNPACK.format(folder='"%s"' % FOLDER, sum=bundle.sum)
    done = subprocess.run([*login.command, script], input=bundle.archive, capture_output=True)
    if done.returncode != 0:
        return None, done.stderr.decode("utf-8", "replace").strip() or "ssh ended with status %d" % done.returncode
    return login.slots or int(done.stdout.split()[-1]), None


class Machines:
    """Batches are given out in rounds, each of which is a call of parallel. The next round's are collected meanwhile."""

    SECONDS, LEAST, MOST = 10, 20, 20_000  # of a batch, and tries of one

    def __init__(self, campaign, logins, first, scratch, joblog):
        if shutil.which("parallel") is None:
            raise Refused("GNU parallel isn't installed")
        self.campaign, self.first, self.joblog = campaign, first, joblog
        self.logins, self.bundle, self.left_out = logins, Bundle(campaign), set()
        self.reach()
        self.checker = Checker(campaign, scratch.folder)
        self.begin()

    def begin(self):
        """tries: of each batch that isn't done. waiting, given: the batches of the next round, and of this one."""
        self.tries, self.waiting, self.given, self.read = {}, [], [], b""
        self.process, self.each, self.fruitless, self.is_stopped = None, FIRST, 0, False

    def reach(self):
        """Finds the machines that answer, and how many tries each does at once."""
        with ThreadPoolExecutor(len(self.logins)) as threads:
            found = list(threads.map(lambda login: prepare(login, self.bundle), self.logins))
        for login, (_, why) in zip(self.logins, found):
            if why and login.text not in self.left_out:
                print("seeds: %s is left out: %s" % (login.text, why), file=sys.stderr)
        self.left_out = {login.text for login, (_, why) in zip(self.logins, found) if why}
        self.slots = {login.text: count for login, (count, why) in zip(self.logins, found) if not why}
        if not self.slots:
            raise Refused("no machine can be reached")
        self.workers = range(sum(self.slots.values()))

    # ------------------------------------------------------------ parallel

    def words(self):
        logins = ["%d/%s" % (count, re.sub("^[0-9]+/", "", text)) for text, count in self.slots.items()]
        run = "cd %s/%s && exec python3 -m campaign.far" % (FOLDER, self.bundle.sum)
        words = ["parallel", "--will-cite", "--plain", "--line-buffer", "--colsep", " ", "--retries", str(RETRIES), "--ssh", SSH]
        words += ["--joblog", "+" + str(self.joblog)] if self.joblog else []
        return [*words, "--sshlogin", ",".join(logins), run + " {1} {2} {3}"]

    def begin_round(self):
        """Gives parallel all batches that wait. It gets no more meanwhile, because it may wait for them and do nothing."""
        self.given, self.waiting = self.waiting, []
        with tempfile.TemporaryFile() as lines:
            lines.write("".join(map(self.line, self.given)).encode())
            lines.seek(0)
            self.process = subprocess.Popen(self.words(), stdin=lines, stdout=subprocess.PIPE, stderr=subprocess.DEVNULL,
                                            start_new_session=True)
        os.set_blocking(self.process.stdout.fileno(), False)

    def line(self, number):
        count = len(self.campaign.settings)
        tries = ranges_of(count * (seed - self.first) + setting for setting, seed in self.tries[number])
        return "%d %d %s\n" % (number, self.first, tries)

    def end_round(self):
        """What no machine came to the end of is for the next round, and for the machines that answer then."""
        self.process.wait()
        self.process, self.read, self.each = None, b"", min(2 * self.each, LAST)
        left = [number for number in self.given if number in self.tries]
        self.waiting = left + self.waiting
        self.fruitless = self.fruitless + 1 if len(left) == len(self.given) else 0
        if self.fruitless == CALLS:
            raise Refused("%d batches of tries weren't done by any machine" % len(left))
        if self.waiting and not self.is_stopped:
            self.reach()

    # ------------------------------------------------------------ like a Pool

    def has_room(self):
        return len(self.waiting) < self.each * len(self.workers)

    def give(self, number, tries):
        self.tries[number] = tries
        self.waiting.append(number)

    def stop(self):
        self.is_stopped = True

    def wait(self, seconds):
        """The batches that were done within so many seconds, as a list of Done."""
        if self.process is None and not self.is_stopped:
            self.begin_round()
        ready = select.select([self.process.stdout] if self.process else [], [], [], seconds)[0]
        data = self.process.stdout.read() if ready else b""
        done = self.received(data or b"")
        if ready and data == b"":
            self.end_round()
        return done

    def received(self, data):
        """What these bytes end; the beginning of a line waits for the rest."""
        *lines, self.read = (self.read + data).split(b"\n")
        return [done for line in lines if (done := self.done(line.decode("utf-8", "replace")))]

    def done(self, line):
        done = read_line(line)
        if done is None or done.number not in self.tries:
            return None  # no whole line, or a batch that was done twice
        return Done(done.number, *self.checker.checked(self.tries.pop(done.number), done))

    def close(self):
        if self.process and self.process.poll() is None:
            self.process.terminate()
            self.process.wait()


class Checker:
    """Walks the logs that other machines send, by the program that is here."""

    def __init__(self, campaign, folder):
        self.condition = condition_of(campaign)[1]
        self.rows, self.sphere = rows_of(self.condition), campaign.plan.values["sphere"][campaign.plan.number]
        self.runner = Runner(campaign.program, folder)

    def checked(self, tries, done):
        """(results, failure): up to the first log that isn't what it was said to be."""
        for place, ((_, seed), result) in enumerate(zip(tries, done.results)):
            if result.outcome in (BAD, HUNG) and not self.is_so(result):
                return done.results[:place], Differs("the log that a machine sent ends otherwise")
        return done.results, done.failure

    def is_so(self, result):
        with open(self.runner.path("log"), "wb") as file:
            file.write(result.log)
        ended = ended_of(self.runner.walk(self.sphere["image"], self.sphere["memory"], self.runner.path("log")), self.rows)
        return threads_text(ended) == result.threads and (
            result.outcome == HUNG or is_live(ended) or ended.meets(self.condition, True))
