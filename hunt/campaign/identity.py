"""What a campaign is of: two files with the same Identity can be joined, and one is gone on with by the same command."""

from collections import namedtuple
import hashlib
import json

from .program import sum_of_file

# plan_sum: of the plan without its seed. program_sum, files_sum: of the program, and of the files that the plan reads. sphere:
# the number of the judged one. bad: the conditions, as JSON. most_events: as the command has it.
Identity = namedtuple("Identity", "plan_sum program_sum files_sum sphere bad most_events")
DIFFERENT = {"plan_sum": "another plan", "program_sum": "another program", "files_sum": "another image, input or script",
             "sphere": "another sphere", "bad": "other conditions", "most_events": "another --most-events"}


def identity_of(campaign):
    plan = campaign.plan
    return Identity(plan.sum, sum_of_file(campaign.program[-1]), files_sum(plan), str(plan.number), json.dumps(campaign.bad),
                    str(campaign.most_events))


def files_sum(plan):
    """What tells the contents of the plan's files apart, all that are read."""
    return hashlib.sha256("".join(map(sum_of_file, files_read(plan))).encode()).hexdigest()


def files_read(plan):
    """The names of the files that a run of the plan reads."""
    spheres = plan.values["sphere"]
    names = [sphere.get("image") for sphere in spheres] + [plan.values.get("input"), plan.values.get("script")]
    names += [sphere.get(key) for sphere in spheres if sphere.get("role") == "replay" for key in ("log", "strata")]
    return [name for name in names if name is not None]
