"""The file of a campaign: `Store(name)` opens it, or makes it. It is a SQLite database, so sqlite3 reads it too.

One process writes it, in one transaction for each second or so. A try is in it whole or not at all: its row, and its log if it
is a find, come with the same transaction."""

from collections import namedtuple
import json
from pathlib import Path
import sqlite3

from lib.searching import Refused

from .identity import Identity
from .trying import BAD, HUNG, LIVE, OUTCOMES

SCHEMA = """
create table campaign (key text primary key, value text not null) without rowid;
create table setting (id integer primary key, text text not null unique);
create table threads (id integer primary key, text text not null unique);
create table console (id integer primary key, sum text not null unique);
create table try (setting integer, seed integer, outcome integer not null, events integer not null, commits integer not null,
                  threads integer not null, console integer not null, primary key (setting, seed)) without rowid;
create table find (setting integer, seed integer, log blob not null, primary key (setting, seed));
create view tries as
    select setting.text as setting, seed, case outcome {cases} end as outcome, events, commits, threads.text as threads,
           console.sum as console
    from try join setting on setting.id = try.setting join threads on threads.id = try.threads
             join console on console.id = try.console;
""".format(cases=" ".join("when %d then '%s'" % pair for pair in enumerate(OUTCOMES)))
# From the file `other`: its texts, then its tries and finds with the numbers that the texts have here.
JOIN = """
insert or ignore into setting (text) select text from other.setting order by id;
insert or ignore into threads (text) select text from other.threads order by id;
insert or ignore into console (sum) select sum from other.console order by id;
create temp view if not exists theirs as
    select main.setting.id as setting, t.seed, t.outcome, t.events, t.commits, main.threads.id as threads,
           main.console.id as console
    from other.try t join other.setting s on s.id = t.setting join main.setting on main.setting.text = s.text
                     join other.threads e on e.id = t.threads join main.threads on main.threads.text = e.text
                     join other.console c on c.id = t.console join main.console on main.console.sum = c.sum;
insert or ignore into main.try select * from theirs;
insert or ignore into main.find select main.setting.id, f.seed, f.log
    from other.find f join other.setting s on s.id = f.setting join main.setting on main.setting.text = s.text;
"""
DIFFERING = """
select main.setting.text, theirs.seed from theirs join main.setting on main.setting.id = theirs.setting
    join main.try mine on mine.setting = theirs.setting and mine.seed = theirs.seed
    where (mine.outcome, mine.events, mine.commits, mine.threads, mine.console)
       <> (theirs.outcome, theirs.events, theirs.commits, theirs.threads, theirs.console) limit 1
"""
FINDS = """
select t.* from try u join setting s on s.id = u.setting join tries t on t.setting = s.text and t.seed = u.seed
    where u.outcome in (%s) order by u.seed, s.id
"""
RATES = """
select s.text, sum(outcome <> ?), sum(outcome = ?) from try t join setting s on s.id = t.setting group by s.id order by s.id
"""
NAME = "campaign.sqlite"

Find = namedtuple("Find", "setting seed outcome events commits threads console")


class Store:
    def __init__(self, name):
        try:
            self.base = sqlite3.connect(name, isolation_level=None)
            self.base.execute("pragma cache_size = -8000")
            self.is_new = not self.base.execute("select 1 from sqlite_master where name = 'campaign'").fetchone()
        except sqlite3.Error as error:
            raise Refused("%s: %s" % (name, error)) from None
        self.ids = {}

    def close(self):
        self.base.close()

    def begin(self, identity, values):
        """Makes the tables of a new campaign."""
        self.is_new = False
        self.base.executescript("begin immediate;" + SCHEMA)
        facts = [*identity._asdict().items(), ("values", json.dumps(values))]
        self.base.executemany("insert into campaign values (?, ?)", facts)
        self.base.execute("commit")

    def identity(self):
        found = dict(self.base.execute("select key, value from campaign"))
        return Identity(*(found.get(key) for key in Identity._fields))

    def values(self):
        """The values of the plan."""
        return json.loads(self.base.execute("select value from campaign where key = 'values'").fetchone()[0])

    # ------------------------------------------------------------ writing

    def id(self, table, column, text):
        key = table, text
        if key not in self.ids:
            if len(self.ids) > 10_000:
                self.ids.clear()
            self.base.execute("insert or ignore into %s (%s) values (?)" % (table, column), (text,))
            (self.ids[key],) = self.base.execute("select id from %s where %s = ?" % (table, column), (text,)).fetchone()
        return self.ids[key]

    def add(self, results):
        """Adds what tries have come to, as (name of the setting, seed, Result): all of it, or after a failure none."""
        self.base.execute("begin immediate")
        try:
            self.base.executemany("insert or ignore into try values (?, ?, ?, ?, ?, ?, ?)", (
                (self.id("setting", "text", setting), seed, r.outcome, r.events, r.commits,
                 self.id("threads", "text", r.threads), self.id("console", "sum", r.console)) for setting, seed, r in results))
            self.base.executemany("insert or ignore into find values (?, ?, ?)", (
                (self.id("setting", "text", setting), seed, r.log) for setting, seed, r in results if r.log is not None))
        except BaseException:
            self.base.execute("rollback")
            self.ids.clear()
            raise
        self.base.execute("commit")

    def join(self, other):
        """Adds what another file of the same campaign has. Tries that both have must have ended alike."""
        self.base.execute("attach ? as other", (other,))
        try:
            self.base.executescript("begin immediate;" + JOIN)
            differing = self.base.execute(DIFFERING).fetchone()
            self.base.execute("rollback" if differing else "commit")
        finally:
            self.base.execute("detach other")
        if differing:
            setting, seed = differing
            raise Refused("seed %d%s ended otherwise in the other campaign" % (seed, setting and ", " + setting))

    # ------------------------------------------------------------ reading

    def done(self, setting, first, last):
        """The seeds from first to last that were tried with the setting."""
        rows = self.base.execute("select seed from try where setting = (select id from setting where text = ?)"
                                 " and seed between ? and ?", (setting, first, last))
        return {seed for (seed,) in rows}

    def count(self, settings, seeds):
        """How many of the seeds were tried with these settings."""
        ids = dict(self.base.execute("select text, id from setting"))
        counted = "select count(*) from try where setting = ? and seed between ? and ?"
        return sum(self.base.execute(counted, (ids.get(setting), seeds[0], seeds[-1])).fetchone()[0] for setting in settings)

    def counts(self):
        """How many tries came to each outcome."""
        found = dict(self.base.execute("select outcome, count(*) from try group by outcome"))
        return [found.get(outcome, 0) for outcome in range(len(OUTCOMES))]

    def rates(self):
        """(setting, tries that came to an end, bad ones)."""
        return list(self.base.execute(RATES, (LIVE, BAD)))

    def seeds(self):
        """The first and the last seed that was tried."""
        return self.base.execute("select min(seed), max(seed) from try").fetchone()

    def count_finds(self):
        return self.base.execute("select count(*) from find").fetchone()[0]

    def finds(self, outcomes=(BAD, HUNG)):
        marks = ",".join(map(str, outcomes))
        rows = self.base.execute(FINDS % marks)
        return [Find(*row) for row in rows]

    def log(self, setting, seed):
        row = self.base.execute("select log from find where seed = ? and setting = (select id from setting where text = ?)",
                                (seed, setting)).fetchone()
        return row and row[0]


def open_folder(folder):
    """The Store of a folder that has a campaign."""
    name = Path(folder) / NAME if Path(folder).is_dir() else Path(folder)
    if not name.is_file():
        raise Refused("%s has no campaign" % folder)
    return Store(name)
