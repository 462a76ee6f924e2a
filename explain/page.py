"""docs/answers.md, from the texts of rules.py: `page()` gives it whole."""

from explain.rules import IMAGE, LOG, OTHERS, PLAN, SCRIPT, SOURCE, STRATA

INTRODUCTION = """# Answers

What each answer of `delorean` means, and what to do. `checks/answers --page` makes this page; the
[manual](delorean.1.md#exit-status) has the statuses.

If standard error is a terminal, `bin/delorean` adds a sentence or two after a status other than 0 and 1. They name the key, the
word, the byte or the file, as far as that can be found:

    $ delorean run plan.toml
    refused plan 4
    delorean: plan.toml, line 1: `cores` is 9, but it has to be 1 to 8.

`DELOREAN_EXPLAIN=1` in the environment adds them also if standard error isn't a terminal, and `DELOREAN_EXPLAIN=0` leaves them out
everywhere. The line on standard output and the status are the program's own, and never change.

The sentences are found by Python code in `explain/`, which isn't proved. It reads the words and the files once more, by rules that are
written down a second time there. If it doesn't come to the program's answer, or a file came through a pipe or is too large to read in
some seconds, only the rule in words is said, as it is here. The program's line is known only if standard output is a file; otherwise
the status alone is compared, so a file that has changed since is explained as it is now.
"""

SECTIONS = (
    ("Plans", "`refused plan RULE`, status 3. RULE is the first rule that the whole plan breaks. For each: what is wrong, and what to do.", PLAN),
    ("Images", "`refused image SPHERE RULE`, status 4.", IMAGE),
    ("Logs and tails", "`refused log SPHERE NUMBER OFFSET`, status 5. OFFSET is the first byte of the field or entry that isn't\n"
     "good; with 1 it is the length of the file. A tail is refused in the same way, by `tail`.", LOG),
    ("Strata", "`refused strata SPHERE NUMBER OFFSET`, status 5. The numbers are those of logs, and two more, with which the last number is\n"
     "that of a commit.", {n: rule for n, rule in STRATA.items() if LOG.get(n) != rule}),
    ("Scripts", "`refused script LINE`, status 5. LINE is the first wrong line.", {"": SCRIPT}),
    ("Sources", "`refused source LINE RULE`, status 9. LINE is the first line that breaks a rule.", SOURCE),
)
LINES = {2: "`usage`", 6: "`fault NAME`", 7: "what got through", 8: "nothing, or a beginning", 10: "`absent NAME`"}

ENDING = """A replay that diverges isn't an error: its status is 1, and the [reasons](delorean.1.md#reasons-to-diverge) are in the
manual.
"""


def page():
    parts = [INTRODUCTION]
    for title, text, rules in SECTIONS:
        parts.append("## %s\n\n%s\n\n%s" % (title, text, listed(rules)))
    rows = [[str(status), LINES[status], *rule] for status, rule in OTHERS.items()]
    parts.append("## Other answers\n\n" + table(["Status", "Line", "What is wrong", "What to do"], rows))
    return "\n".join([*parts, ENDING])


def listed(rules):
    return "".join("%s %s. %s\n" % ("%s." % number if number else "-", *rule) for number, rule in rules.items())


def table(columns, rows):
    head, *lines = ("| %s |\n" % " | ".join(line) for line in [columns, *rows])
    return head + "|" + len(columns) * "---|" + "\n" + "".join(lines)
