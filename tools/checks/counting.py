"""Counts what a check finds right and wrong, and ends it with the line and the status that the gate reads; and how slow the
machine is, where limits are of what it computes."""
import time

counts = {True: 0, False: 0}
# What the work by which machines are compared takes of a processor on one that is not slow.
SECONDS_OF_WORK = 0.15


def right(is_right, what):
    """Counts a check, and says what is wrong where it fails; gives whether it is right."""
    counts[bool(is_right)] += 1
    if not is_right:
        print(what)
    return is_right


def finish():
    """Prints the last line of a check, and gives the status that it ends with."""
    print(f"{counts[True]} passed, {counts[False]} failed")
    return 1 if counts[False] else 0


def slowness():
    """How often longer than such a machine this one takes over the same work, and at least 1: so much more it may take of a
    processor for anything else."""
    begun = time.process_time()
    sum(at * at % 7 for at in range(1_000_000))
    return max(1.0, (time.process_time() - begun) / SECONDS_OF_WORK)
