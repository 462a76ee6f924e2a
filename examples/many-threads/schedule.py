"""Prints a schedule: core 0 starts the forty threads, three other cores do them three at a time, and core 0 waits for them."""

WORKERS = 40
CORES = 4
WORDS = 16  # a chunk stores to no more, since its buffer has as many


def commit(cores, steps):
    """So many steps of each of these cores, one after the other; then each asks, and what it has stored is made visible."""
    print("".join(f"step {core}\n" for core in cores) * steps, end="")
    for core in cores:
        print(f"ask {core}\n" + "drain 0\n" * WORDS + "".join(f"deliver {other} 0\n" for other in range(CORES)) + "retire 0")


def call(times):
    """A chunk of core 0 and then a call, so many times."""
    for _ in range(times):
        commit([0], 40)
        commit([0], 1)


call(WORKERS + 2)
for first in range(1, WORKERS + 1, CORES - 1):
    for core in range(1, CORES):
        print(f"place {core} 0 {first + core - 1}")
    for _ in range(12):
        commit(range(1, CORES), 256)
call(WORKERS + 2)
