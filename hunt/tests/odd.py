"""The race under names that would be markup in a page, or turn a terminal."""

import support

# Of symbols, as long as those that they stand for.
NAMES = ((b"counter", b"<b>&\"'\n"), (b"lock", b"\x1b[m\xff"), (b"thread_entry", b"</script><b>"))
FILE, TITLE = "<img src=x onerror=a()>\x1b[1m.elf", "<img src=x onerror=a()>\\x1B[1m.elf, race.log"
FUNCTION = "</script><b>"
SHOWN = {"<b>&\"'?", "?[m\ufffd"}  # as lib/symbols.py has them


def odd_image(folder):
    """The image's file, in this folder."""
    data = support.example("race, plan.toml").image.read_bytes()
    for name, other in NAMES:
        assert b"\0%s\0" % name in data and len(name) == len(other)
        data = data.replace(b"\0%s\0" % name, b"\0%s\0" % other)
    image = folder / FILE
    image.write_bytes(data)
    return image
