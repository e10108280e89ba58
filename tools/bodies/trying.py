"""Tries each wrong body of a crate, several at once where they can't be taken for one another.

A function is proved from its own code and the contracts of what it calls, never from their bodies. So wrong bodies that
change different functions can be checked at once: an open goal of a function's own comes of that function's code, and
thus of the one wrong body that changes it, and it would be open if that one stood alone. "It calls one that is not
proved" is no open goal. A wrong constant changes the code of each function that names it, so it is checked beside
others that change none of these. The check is asked for those functions alone (`rattle check --only`).

A wrong body is tried alone, by a check of the whole crate, where it can't be told which functions it changes, and where
no function that it changes has an open goal: only that check says that it is accepted.
"""
import os
import shutil
import tempfile

from bodies import edits, forming, places, toolchain, verdicts
from bodies.verdicts import BROKEN, Said

# As many wrong bodies are checked at once: more would take much memory, and lose much where a check is cut off.
MOST = 40


class Trial:
    """A copy of a crate, and what a check of it as it stands proved."""

    def __init__(self, checkout, crate, clock, room, say):
        self.checkout, self.crate, self.clock, self.room, self.say = checkout, crate, clock, room, say
        missing = [it for it in checkout.below(crate.name) if not checkout.is_current(it)]
        if missing:
            raise toolchain.Stop(f"{', '.join(missing)} changed since its library was built, or has none: "
                                 f"run rt ci, or rt check in crates/{crate.name}")
        toolchain.copy_parts(crate.folder, f"{room}/crate")
        toolchain.copy_kept(crate.folder / "out/incremental", f"{room}/kept")
        said = self.check([], "kept")
        if not said.is_proved():
            raise toolchain.Stop(f"{crate.name} is not proved as it stands: {said.last[:200]}")
        self.functions = said.functions

    def check(self, bodies, kept, only=()):
        texts = edits.texts_with(self.crate, bodies)
        toolchain.write(f"{self.room}/crate", texts)
        words = [f"{self.checkout.kit}/bin/rattle", "check", *self.checkout.words(self.crate.name)]
        words += ["--incremental", f"{self.room}/{kept}"]
        for function in only:
            words += ["--only", function]
        try:
            status, text = self.clock.run(words, f"{self.room}/crate")
        finally:
            were = {file: "\n".join(self.crate.source(file)) for file in texts}
            toolchain.write(f"{self.room}/crate", were)
        return Said(self.crate.name, status, text)

    def check_over(self, bodies, only=()):
        """Checks the crate with these wrong bodies over what a check of it without them proved."""
        toolchain.copy_kept(f"{self.room}/kept", f"{self.room}/over")
        try:
            return self.check(bodies, "over", only)
        finally:
            shutil.rmtree(f"{self.room}/over")

    def functions_of(self, body):
        """Returns the functions that a wrong body changes, as the check names them, or none."""
        found = set()
        for end in places.changed_functions(self.crate, body) or ():
            whole = [it for it in self.functions if it == end or end[:2] == "::" and f"::{it}".endswith(end)]
            if len(whole) != 1:
                return set()
            found.add(whole[0])
        return found

    def verdicts(self, bodies, is_alone=False):
        """Yields each of these wrong bodies with its verdict."""
        changed = {id(body): self.functions_of(body) for body in bodies}
        single = [body for body in bodies if is_alone or not changed[id(body)]]
        left = [body for body in bodies if body not in single]
        while left:
            batch, left = together(left, changed)
            single += yield from self.batch_verdicts(batch, changed)
        for body in single:
            yield body, self.verdict_alone(body)

    def batch_verdicts(self, batch, changed):
        """Yields the verdicts that one check gives, and returns the wrong bodies that it gives none."""
        only = sorted(set().union(*(changed[id(body)] for body in batch)))
        self.say(f"{self.crate.name}: {len(batch)} wrong bodies are checked at once", flush=True)
        said = self.check_over(batch, only)
        if not said.is_whole():
            return (yield from self.verdicts_of_parts(batch, said, changed))
        others = []
        for body in batch:
            verdict = verdicts.of_functions(said, changed[id(body)])
            if verdict:
                yield body, verdict
            else:
                others.append(body)
        return others

    def verdicts_of_parts(self, batch, said, changed):
        """Does as batch_verdicts where a check didn't run to its end: without those that don't compile, or by halves."""
        errors = [(self.crate.name, file, int(line) - 1, words) for file, line, words in forming.ERROR.findall(said.text)]
        broken = [body for error in errors for body in forming.owners({self.crate.name: self.crate}, error, batch)]
        left = [body for body in batch if body not in broken]
        if left and broken:
            return [body for body in batch if body in broken] + (yield from self.batch_verdicts(left, changed))
        if len(batch) == 1:
            return batch
        half = len(batch) // 2
        first = yield from self.batch_verdicts(batch[:half], changed)
        return first + (yield from self.batch_verdicts(batch[half:], changed))

    def verdict_alone(self, body):
        self.say(f"{self.crate.name}: {body.name} is checked alone", flush=True)
        said = self.check_over([body])
        if said.status == 1 and "error[" in said.text and not said.is_whole():
            error = next(line for line in said.text.splitlines() if "error[" in line)
            return BROKEN, f"it doesn't compile: {error[:200]}"
        return verdicts.of_crate(said)


def together(bodies, changed):
    """Splits wrong bodies into those that change no function of another's, and the others."""
    taken, chosen, others = set(), [], []
    for body in bodies:
        functions = changed[id(body)]
        if len(chosen) < MOST and taken.isdisjoint(functions):
            taken |= functions
            chosen.append(body)
        else:
            others.append(body)
    return chosen, others


def try_crate(checkout, crate, clock, is_alone=False, say=print):
    """Yields each wrong body of a crate with its verdict."""
    for body in crate.bodies:
        if body.fault:
            yield body, (BROKEN, body.fault)
    with tempfile.TemporaryDirectory(prefix="each_wrong_body-") as room:
        os.mkdir(f"{room}/crate")
        trial = Trial(checkout, crate, clock, room, say)
        yield from trial.verdicts(crate.fine_bodies(), is_alone)
