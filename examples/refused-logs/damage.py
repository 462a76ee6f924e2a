"""Writes 1.log to 7.log: each is good.log, which has an interrupt, with bytes that are no log, for the number of its name."""
from pathlib import Path

good = Path("good.log").read_bytes()
INTERRUPTS = len(good) - 21  # their number, one entry of nine bytes, and no inputs and no DMA


def changed(at, byte):
    return good[:at] + bytes([byte]) + good[at + 1:]


entry = good[INTERRUPTS + 4:INTERRUPTS + 13]
damaged = [
    good[:18],  # 1: the end comes inside the field at 16
    changed(0, ord("X")),  # 2: the magic word
    changed(4, 3),  # 3: the version
    changed(5, 3),  # 4: the mode
    changed(8, 15),  # 5: the standard size is less than 16
    changed(INTERRUPTS, 2)[:INTERRUPTS + 13] + entry + good[INTERRUPTS + 13:],  # 6: the same interrupt twice
    good + b"\0",  # 7: a byte after the last section
]
for number, data in enumerate(damaged, 1):
    Path(f"{number}.log").write_bytes(data)
