"""Prints a schedule of rounds: each of three cores fills a chunk and asks, and what it has stored is made visible."""

ROUNDS = 10
CHUNK = 32
WORDS = 3  # at most so many are stored in a chunk

for _ in range(ROUNDS):
    for core in range(3):
        if core:
            print(f"place {core} 0 {core}")
        print(f"step {core}\n" * CHUNK + f"ask {core}")
        print("drain 0\n" * WORDS + "deliver 0 0\ndeliver 1 0\ndeliver 2 0\nretire 0")
