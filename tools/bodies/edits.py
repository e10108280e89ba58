"""Wrong bodies as they stand in crates/NAME/wrong_bodies/*.edit, and what is wrong with their form.

A line that begins with # names the wrong body that the pairs of old: and new: below it make. Each text is a part of one
line, so a wrong body changes lines and moves none: an error's line tells whose it is, and two wrong bodies that change
different lines can be applied together.
"""
import dataclasses
import pathlib
import re

from bodies import places


class BadEdit(Exception):
    """An edit that can't be read."""


@dataclasses.dataclass(eq=False)
class Body:
    crate: str
    name: str
    pairs: list  # of (file, old, new)
    lines: dict = dataclasses.field(default_factory=dict)  # the text that it gives (file, line number)
    fault: str = ""  # why it can't be applied

    def __str__(self):
        return f"{self.crate}, {self.name}"


def read_edit(path):
    """Returns the wrong bodies of an edit, each as its name and its pairs."""
    file, old, bodies = None, None, []
    for number, line in enumerate(path.read_text(encoding="utf-8").splitlines(), 1):
        word, _, text = line.partition(": ")
        if line.startswith("# "):
            bodies.append((line[2:], []))
        elif word == "file":
            file = text
        elif word == "old" and text:
            old = text
        elif word in ("new", "new:") and bodies and file and old:
            bodies[-1][1].append((file, old, text))
            old = None
        elif line.strip():
            raise BadEdit(f"{path}:{number}: no line of a wrong body: {line}")
    return bodies


class Crate:
    """The sources of a crate, and its wrong bodies, applied each by itself."""

    def __init__(self, folder):
        self.folder = pathlib.Path(folder)
        self.name = self.folder.name
        self.texts = {}  # the lines of each file, as read
        self.bodies = []
        for path in sorted(self.folder.glob("wrong_bodies/*.edit")):
            for name, pairs in read_edit(path):
                self.bodies.append(Body(self.name, name, pairs))
        named = set()
        for body in self.bodies:
            body.fault = self.fault_in(body)
            if body.name in named:
                body.fault = "another one has its name"
            named.add(body.name)

    def source(self, file):
        """Returns the lines of a file, or None where there is none."""
        if file not in self.texts:
            path = self.folder / file
            is_inside = file.startswith("src/") and ".." not in file
            is_file = is_inside and path.is_file()
            self.texts[file] = path.read_text(encoding="utf-8").split("\n") if is_file else None
        return self.texts[file]

    def sources(self):
        """Yields each file of src that is compiled without tests, with its lines."""
        for path in sorted(self.folder.glob("src/**/*.rt")):
            file = path.relative_to(self.folder).as_posix()
            if not places.is_test(file):
                yield file, self.source(file)

    def fault_in(self, body):
        """Applies a wrong body by itself, notes the lines that it gives, and returns why it can't be, if so."""
        changed = {}
        if not body.pairs:
            return "it has no pair of old: and new:"
        for file, old, new in body.pairs:
            if self.source(file) is None:
                return f"there is no file {file} below src/"
            if places.is_test(file):
                return f"{file} is compiled with tests alone"
            lines = changed.setdefault(file, list(self.source(file)))
            found = sum(line.count(old) for line in lines)
            if found != 1:
                return f"its old text stands {found} times in {file}: {old.strip()}"
            number = next(at for at, line in enumerate(lines) if old in line)
            why = places.why_no_code(lines, number, old, new)
            if why:
                return f"{file}:{number + 1}: {why}"
            lines[number] = lines[number].replace(old, new)
        for file, lines in changed.items():
            for number, (was, line) in enumerate(zip(self.source(file), lines)):
                if was != line:
                    body.lines[file, number] = line
        return "" if body.lines else "it changes nothing"

    def fine_bodies(self):
        return [body for body in self.bodies if not body.fault]


def texts_with(crate, bodies):
    """Returns the text of each file that these wrong bodies change, all applied at once."""
    texts = {}
    for body in bodies:
        for (file, number), line in body.lines.items():
            texts.setdefault(file, list(crate.source(file)))[number] = line
    return {file: "\n".join(lines) for file, lines in texts.items()}


def apart(bodies):
    """Splits wrong bodies into those that change no line of another's, and the others."""
    taken, chosen, others = set(), [], []
    for body in bodies:
        places_of = {(body.crate, *place) for place in body.lines}
        if taken.isdisjoint(places_of):
            taken |= places_of
            chosen.append(body)
        else:
            others.append(body)
    return chosen, others
