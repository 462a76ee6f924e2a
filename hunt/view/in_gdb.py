"""What gdb-multiarch is told before it looks at a recorded run: gdb -x in_gdb.py. It has the commands `commit N` and `who WORD`,
which do what `monitor` does, and see that gdb shows the registers of the thread that is next."""

import re

import gdb

gdb.execute("set architecture riscv:rv32")
gdb.execute("set confirm off")
gdb.execute("set remotetimeout 3600")  # at the other end of a pipe the log is played first


class Commit(gdb.Command):
    """commit N [I]: go to where commit N begins, or to before its instruction I, and to its thread."""

    def __init__(self):
        super().__init__("commit", gdb.COMMAND_RUNNING)

    def invoke(self, argument, _):
        text = gdb.execute("monitor commit " + argument, to_string=True)
        gdb.execute("maintenance flush register-cache", to_string=True)
        gdb.execute("maintenance flush dcache", to_string=True)
        gdb.write(text)
        thread = re.match(r"commit \d+: thread (\d+)", text)
        if thread:
            gdb.execute("thread %d" % (int(thread[1]) + 1))


class Who(gdb.Command):
    """who WORD: the last store to the word before here, and the next one."""

    def __init__(self):
        super().__init__("who", gdb.COMMAND_DATA)

    def invoke(self, argument, _):
        gdb.execute("monitor who " + argument)


Commit()
Who()
