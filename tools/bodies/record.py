"""docs/WRONG_BODIES.md: what each wrong body came to when it was last tried, and of which sources that was."""
import collections
import datetime
import fcntl
import hashlib
import re
import subprocess

from bodies import places
from bodies.verdicts import ACCEPTED, BROKEN, NOT_JUDGED, REFUSED

KINDS = (REFUSED, NOT_JUDGED, ACCEPTED, BROKEN)
PAGE = "docs/WRONG_BODIES.md"
HEAD = """# Wrong bodies

A wrong body is a mutation of the code that the check must refuse: otherwise a contract lets it through. The gate tries
those of `crates/NAME/must-fail` each time. Those on this page are in `crates/NAME/wrong_bodies`. Of these the gate
checks that each can be applied, and tries those of crates that have changed, as far as its time goes. This page says
what each came to when it was last tried; `tools/each_wrong_body --write` writes it.

The sum of a section is taken over everything that its verdicts depend on. Of the crate itself, that is the files below
src, specs, proofs and wrong_bodies, and its line of crates.txt. Of each crate below it, it is the specs, and the
sources without the bodies of functions. Imports are left out, and so are comments in sources: a change of an import
shows in other lines too. If the sum differs from that of the files, the crate has to be tried again, which
`tools/each_wrong_body --changed` does.

A row names the function whose proof fails, and the goals that are open there or the handwritten answer that no longer
fits. "Not judged" is a wrong body that fails the check for another reason, for instance because a proof misses a name.
So it says little about a contract.
"""
# A `use` of sources, and of definitions and proofs; one under `pub` is seen by callers.
IMPORTS = {
    ".rt": re.compile(r"^ *(?:ghost +)?use\s[^;]*;\n", re.M),
    ".antt": re.compile(r"^use\s.*\n(?:[ \t}].*\n)*", re.M),
}
SECTION = re.compile(r"^## (\w+)\n(.*?)(?=^## |\Z)", re.M | re.S)


def without_imports(text, ending):
    """Returns a file without its imports; ending is that of its name."""
    return IMPORTS[ending].sub("", text) if ending in IMPORTS else text


def without_comments(text):
    """Returns a source file without the lines that are a comment or empty."""
    return "\n".join(line for line in text.split("\n") if not re.match(r" *(//|$)", line))


def outside_bodies(text):
    """Returns what a caller may rest on: the lines of a source file but for those in the bodies of functions."""
    lines, kept, until = without_comments(text).split("\n"), [], None
    for number, line in enumerate(lines):
        if until is not None:
            if line.startswith(until):
                until = None
            continue
        kept.append(line)
        if line.rstrip().endswith("{") and is_body_start(lines, number):
            until = " " * places.indent(line) + "}"
    return "\n".join(kept)


def is_body_start(lines, number):
    head = next(places.headers(lines, number))
    return places.FUNCTION.match(lines[head]) is not None


def sum_of(checkout, name):
    """Returns the sum of all that the verdicts on a crate's wrong bodies rest on."""
    total = hashlib.sha256(repr((name, checkout.uses[name])).encode())
    for part in ("src", "specs", "proofs", "wrong_bodies"):
        add_files(total, checkout.folder(name), part, without_comments if part == "src" else str)
    for dep in checkout.below(name):
        total.update(dep.encode())
        add_files(total, checkout.folder(dep), "specs")
        add_files(total, checkout.folder(dep), "src", outside_bodies)
    return total.hexdigest()[:20]


def add_files(total, folder, part, seen_as=str):
    for path in sorted(folder.glob(f"{part}/**/*.*")):
        file = path.relative_to(folder).as_posix()
        if not places.is_test(file):
            text = without_imports(path.read_text(encoding="utf-8"), path.suffix)
            total.update(f"{file}\0{seen_as(text)}\0".encode())


def sections_of(text):
    return {name: body.strip() for name, body in SECTION.findall(text)}


class Record:
    """The sections of the page, by crate."""

    def __init__(self, top):
        self.top, self.path, self.noted = top, top / PAGE, set()
        self.sections = sections_of(self.path.read_text(encoding="utf-8") if self.path.is_file() else "")

    def sum_of(self, name):
        found = re.search(r"^Sum: `(\w+)`", self.sections.get(name, ""), re.M)
        return found and found[1]

    def failed(self, name):
        """Returns the wrong bodies of a crate that the page has as accepted or broken, each with its verdict."""
        rows = re.findall(r"^\| (.*?) \| (.*) \|$", self.sections.get(name, ""), re.M)
        return {body: verdict for body, verdict in rows if verdict.startswith((ACCEPTED, BROKEN))}

    def note(self, name, total, verdicts):
        """Replaces the section of a crate, given each wrong body with its verdict, in their order."""
        counts = collections.Counter(kind for _, (kind, _) in verdicts)
        counted = ", ".join(f"{counts[kind]} {kind}" for kind in KINDS if counts[kind])
        when = datetime.datetime.now(datetime.timezone.utc).strftime("%Y-%m-%d")
        lines = [f"{len(verdicts)} wrong bodies: {counted}."]
        lines += [f"Tried at {self.revision()} on {when}.", "", f"Sum: `{total}`", ""]
        lines += ["| Wrong body | Verdict |", "|---|---|"]
        for body, (kind, words) in verdicts:
            lines.append(f"| {cell(body.name)} | {kind}: {cell(words)} |")
        self.sections[name] = "\n".join(lines)
        self.noted.add(name)

    def revision(self):
        words = ["git", "rev-parse", "--short", "HEAD"]
        return subprocess.run(words, cwd=self.top, capture_output=True, text=True).stdout.strip() or "no revision"

    def write(self, order):
        """Writes the page, with the crates in this order, and with what other runs have noted of others meanwhile."""
        with open(self.path, "a+", encoding="utf-8") as page:
            fcntl.flock(page, fcntl.LOCK_EX)
            page.seek(0)
            sections = sections_of(page.read()) | {name: self.sections[name] for name in self.noted}
            parts = [HEAD, *(f"## {name}\n\n{sections[name]}\n" for name in order if name in sections)]
            page.truncate(0)
            page.write("\n".join(parts))


def cell(text):
    return " ".join(text.split()).replace("|", "\\|")
