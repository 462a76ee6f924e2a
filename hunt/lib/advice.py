"""What to try if a search has met a limit, in one sentence: `advice(result)`."""

SMALLER = "fewer threads, rounds or lines printed need far fewer runs, and seeds takes programs of any size"
AT = {
    "seconds": "--seconds gives more time",
    "tries": "--tries allows more runs",
    "states": "--states allows more, if there is memory",
}


def advice(result):
    """Of an engine's Search without a find."""
    if result.how in AT:
        yield "to cover more: %s; %s" % (AT[result.how], SMALLER)
    elif result.limited:
        yield "to cover more: --steps allows longer runs; what prints less, or sleeps less, needs fewer"
