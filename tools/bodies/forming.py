"""Compiles wrong bodies by the front end alone, which proves nothing: as many at once as change other lines.

The front end says of what it rejects where it stands. It is asked for a function that no crate has, so that it ends
once it has read, resolved, typed and lowered all functions, and has checked their borrows, and says that there is no
such function. A crate is compiled over the sources of those below it, so that no library has to be there, and the wrong
bodies of all these crates are compiled along with it.
"""
import re
import tempfile

from bodies import edits, places
from bodies.toolchain import Stop, copy_parts, write

NO_NAME = "no function"
ERROR = re.compile(r"^(\S+?\.rt):(\d+):\d+: (error\b.*)", re.M)


class Front:
    """A copy of the checkout in which wrong bodies are compiled."""

    def __init__(self, checkout, crates, clock, room):
        self.checkout, self.crates, self.clock, self.room = checkout, crates, clock, room
        for name in crates:
            copy_parts(checkout.folder(name), self.folder(name))

    def folder(self, name):
        return f"{self.room}/{name}"

    def errors(self, top, bodies):
        """Compiles a crate and those below it with these wrong bodies, and returns each error as its crate, its file,
        its line and its words."""
        changed = {body.crate for body in bodies}
        for name in changed:
            own = [body for body in bodies if body.crate == name]
            write(self.folder(name), edits.texts_with(self.crates[name], own))
        words = [f"{self.checkout.kit}/bin/rattle", "check", *self.checkout.words(top, self.folder)]
        status, said = self.clock.run([*words, "--start", NO_NAME], self.folder(top))
        for name in changed:
            crate = self.crates[name]
            files = {file for body in bodies if body.crate == name for file, _ in body.lines}
            write(self.folder(name), {file: "\n".join(crate.source(file)) for file in files})
        if status == 2 and f"has no function `{NO_NAME}`" in said:
            return []
        found = []
        for path, line, words in ERROR.findall(said):
            crate, _, file = path.removeprefix(f"{self.room}/").partition("/")
            if not path.startswith(self.room):
                crate, file = top, path.removeprefix("./")
            found.append((crate, file, int(line) - 1, words))
        if not found:
            raise Stop(f"the front end ended with status {status}: {said[-400:]}")
        return found


def owners(crates, error, bodies):
    """Returns the wrong bodies that an error is likely of: on its line, or else in its function, or else those of
    constants, which types can rest on, also in crates above, or else those in its file, or else all."""
    crate, file, line, _ = error
    near = [body for body in bodies if body.crate == crate and any(it == file for it, _ in body.lines)]
    here = function(crates[crate], file, line)
    in_function = [body for body in near for place in body.lines if here and function(crates[crate], *place) == here]
    of_constants = [body for body in bodies if not all(function(crates[body.crate], *place) for place in body.lines)]
    on_line = [body for body in near if (file, line) in body.lines]
    return on_line or in_function or of_constants or near or bodies


def function(crate, file, line):
    lines = crate.source(file)
    return places.function_at(file, lines, line) if lines and line < len(lines) else None


def tops_of(checkout, names):
    """Returns crates over which all these are compiled: those that none of the others stands on."""
    return [it for it in names if not any(it in checkout.below(other) for other in names)]


def compile_all(checkout, crates, clock, say=print):
    """Compiles all wrong bodies that can be applied, and notes at each that fails why."""
    with tempfile.TemporaryDirectory(prefix="each_wrong_body-") as room:
        needed = {it for name in crates for it in [name, *checkout.below(name)]}
        every = {name: crates.get(name) or edits.Crate(checkout.folder(name)) for name in needed}
        front = Front(checkout, every, clock, room)
        left = [body for crate in crates.values() for body in crate.fine_bodies()]
        while left:
            chosen, left = edits.apart(left)
            names = {body.crate for body in chosen}
            for top in tops_of(checkout, sorted(names)):
                covered = {top, *checkout.below(top)}
                own = [body for body in chosen if body.crate in covered]
                chosen = [body for body in chosen if body.crate not in covered]
                say(f"{top}: {len(own)} wrong bodies are compiled", flush=True)
                compile_batch(front, top, own)


def compile_batch(front, top, bodies):
    """Compiles wrong bodies at once, and those that an error can be of once more, in their own crates."""
    suspects = []
    while bodies:
        errors = front.errors(top, bodies)
        if not errors:
            break
        if len(bodies) == 1 and bodies[0].crate == top:
            crate, file, line, words = errors[0]
            bodies[0].fault = f"it doesn't compile: {crate}/{file}:{line + 1}: {words}"
            break
        found = [body for error in errors for body in owners(front.crates, error, bodies)]
        suspects += [body for body in bodies if body in found]
        bodies = [body for body in bodies if body not in found]
    for name in dict.fromkeys(body.crate for body in suspects):
        own = [body for body in suspects if body.crate == name]
        # what fails together where it fails in its own crate is compiled one by one
        for part in [own] if name != top or bodies else [[body] for body in own]:
            compile_batch(front, name, part)
