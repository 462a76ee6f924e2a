"""What isn't there, in sentences: `explained(errors)` adds them to what the compiler and the linker say."""

import re

FILES = "there are no files: stdin reads the plan's input, and stdout is the console"
PROCESSES = "there is one process: take threads"
SIGNALS = "there are no signals: let a thread look at a word"
SOCKETS = "there is no network"
WHY = {
    FILES: "open close lseek fstat stat unlink rename fcntl ioctl select poll mkdir opendir fopen freopen tmpfile",
    PROCESSES: "fork vfork execv execve execvp waitpid wait popen system getppid kill",
    SIGNALS: "sigaction sigprocmask raise signal alarm setitimer pause sigwait",
    SOCKETS: "socket bind listen accept connect send recv getaddrinfo",
    "threads have no processors of their own": "pthread_setaffinity_np pthread_getaffinity_np sched_setaffinity",
    "memory isn't mapped: take malloc, and a larger --heap": "mmap munmap mprotect sbrk brk",
}
SENTENCES = {name: why for why, names in WHY.items() for name in names.split()}
OTHER = "it isn't in the SDK's library (sdk/README.md says what is), nor in a source that was given"
UNDEFINED = re.compile(r"undefined (?:reference to|symbol:) [`']?(\w+)")

COMPILED = [
    (re.compile(r"'__int128' is not supported|unknown type name '__u?int128_t'"),
     "there is no __int128 on a machine of 32 bits: take two words of 64 bits"),
    (re.compile(r"no member named '__delorean_thrd'"),
     "thrd_create, mtx_lock and the like are macros too: call a member that is called so as (x.mtx_lock)(..)"),
]


def explained(errors):
    names = sorted(set(UNDEFINED.findall(errors)))
    told = ["delorean-cc: " + why for pattern, why in COMPILED if pattern.search(errors.replace("\u2018", "'").replace("\u2019", "'"))]
    told += ["delorean-cc: " + ("no source has a main" if name == "main" else "%s: %s" % (name, SENTENCES.get(name, OTHER))) for name in names]
    return "\n".join([errors.rstrip(), *told])
