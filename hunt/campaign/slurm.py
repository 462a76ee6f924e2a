"""A script for `sbatch`: an array of tasks, each of which is a campaign with a part of the seeds, in a folder of its own.

A task that Slurm begins again, because its machine has died, goes on where it was. `hunt/seeds join` puts the parts together."""

from pathlib import Path
import shlex
import sys

SCRIPT = """#!/bin/sh
#SBATCH --job-name=delorean-seeds
#SBATCH --array=0-{last_task}
#SBATCH --cpus-per-task={jobs}
#SBATCH --requeue
#SBATCH --open-mode=append
#SBATCH --output={output}
# When all tasks are done: {join}
cd {folder} || exit 2
task=$SLURM_ARRAY_TASK_ID
first=$(({first} + task * {each}))
last=$((first + {each} - 1))
[ "$last" -le {last} ] || last={last}
status=0
{command} --seeds "$first-$last" --keep {keep}/"part-$task" --resume --jobs "${{SLURM_CPUS_PER_TASK:-{jobs}}}" || status=$?
[ "$status" -le 1 ] || exit "$status" # 1 says that no run was bad
"""


def script_of(given):
    """The text of the script."""
    tasks = min(given.tasks, len(given.seeds))
    each = -(-len(given.seeds) // tasks)
    tasks = -(-len(given.seeds) // each)
    keep, seeds = shlex.quote(given.keep), shlex.quote(str(Path(sys.argv[0]).resolve()))
    command = " ".join([seeds, *map(shlex.quote, words_of(given))])
    return SCRIPT.format(last_task=tasks - 1, jobs=given.jobs, output=shlex.quote(given.keep + "/part-%a.txt"),
                         folder=shlex.quote(str(Path.cwd())), first=given.seeds[0], last=given.seeds[-1], each=each, keep=keep,
                         command=command, join="%s join %s %s/part-*/" % (seeds, keep, keep))


def words_of(given):
    """The words of a task, except those that differ."""
    words = [given.plan]
    for option, values in (("--bad", given.bad), ("--vary", given.vary)):
        for value in values:
            words += [option, value]
    for option, value in (("--sphere", given.sphere), ("--most-events", given.most_events)):
        if value is not None:
            words += [option, str(value)]
    return words


def write(given):
    Path(given.keep).mkdir(parents=True, exist_ok=True)
    Path(given.slurm).write_text(script_of(given))
    Path(given.slurm).chmod(0o755)
    print("%s: sbatch %s begins it" % (given.slurm, shlex.quote(given.slurm)))
