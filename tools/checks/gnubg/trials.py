"""Counts what is tried with GNU Backgammon, many at once."""
import collections
import concurrent.futures
import os
import tempfile


class Count:
    """What passed and failed, and what was seen how often."""

    def __init__(self):
        self.passed, self.failed, self.seen = 0, 0, collections.Counter()

    def add(self, what, faults, tried=1):
        """Counts what was tried, and prints what is wrong with it."""
        for fault in faults:
            print(f"{what}: {fault}")
        failed = min(len(faults), tried)
        self.passed, self.failed = self.passed + tried - failed, self.failed + failed

    def add_each(self, what, trial, items, room):
        """Counts each of the items, in their order, by a trial that is given a folder of its own. As many are tried at
        once as processors are idle."""
        def tried(item):
            seen = collections.Counter()
            return item, trial(item, tempfile.mkdtemp(dir=room), seen), seen

        idle = (os.cpu_count() or 1) - round(os.getloadavg()[0])
        with concurrent.futures.ThreadPoolExecutor(max(1, idle)) as pool:
            for item, faults, seen in pool.map(tried, items):
                self.add(f"{what} {item}", faults)
                self.seen += seen

    def end(self, kinds):
        """Prints what was seen, of which each of these kinds must be, and the last line; returns the status."""
        print(", ".join(f"{count} {what}" for what, count in self.seen.items()))
        if missing := [kind for kind in kinds if not self.seen[kind]]:
            self.add("in all", [f"there was no {', '.join(missing)}"])
        print(f"{self.passed} passed, {self.failed} failed")
        return 1 if self.failed else 0
