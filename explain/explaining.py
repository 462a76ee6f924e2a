"""What an answer means: `explain(status, words, line)` gives one or two sentences, or None if there is nothing to say."""

import resource

from explain import files, output
from explain.rules import OTHERS, rule_of
from explain.shown import number
from explain.work import first_refusal

KILLED = 137  # by SIGKILL, as a shell gives it


def explain(status, words, line=None):
    """line: what the program said, or None if that isn't known."""
    if status == 7:
        return failed_output()
    if status == 8:
        return out_of_memory()
    if status == KILLED:
        return "The program was killed. If nobody did that, the system did, because memory ran out."
    if status not in REFUSALS:
        return None
    found = matching(status, words, line)
    return found.found if found else certain(status, line)


REFUSALS = (2, 3, 4, 5, 6, 9, 10)


def matching(status, words, line):
    """What the readers here find, if it is the program's answer. Whatever fails here, the rule in words is still certain."""
    try:
        found = first_refusal(words)
    except Exception:
        return None
    if found is None or found.status != status or (line is not None and found.line != line):
        return None
    return found


def certain(status, line):
    """What is certain if nothing was found: the rule that the line names, or what the status means."""
    rule = rule_of(line) if line else None
    if rule:
        return sentence(rule)
    if status == 6 and line and line.startswith("fault "):
        return named_fault(line[6:])
    if status in OTHERS:
        return sentence(OTHERS[status])
    return "%s The rules in words are in docs/answers.md, or in `man delorean-answers`." % WHERE[status]


def sentence(rule):
    return "%s. %s" % (rule.broken[0].upper() + rule.broken[1:], rule.to_do)


def named_fault(name):
    reason = files.unreadable(name, False) or files.unwritable(name)
    return files.fault(name, reason).found if reason else sentence(OTHERS[6])


# What the line has at its end, by status.
WHERE = {
    3: "The number is that of the first rule of plans that the plan breaks.",
    4: "The numbers are the sphere and the first rule of images that its image breaks.",
    5: "The numbers say what is wrong, and where.",
    9: "The numbers are the line and the first rule that it breaks.",
}


def failed_output():
    why = output.why_it_failed()
    return "%s %s" % (why, sentence(OTHERS[7])) if why else sentence(OTHERS[7])


def out_of_memory():
    limit = resource.getrlimit(resource.RLIMIT_AS)[0]
    if limit == resource.RLIM_INFINITY:
        return sentence(OTHERS[8])
    found = "Memory ran out: `ulimit -v` allows %s KiB." % number(limit // 1024)
    return found + " Raise that, or take fewer spheres, smaller memories or fewer events."
