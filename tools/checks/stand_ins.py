"""What a release says of itself, and what tools/release refuses, in a copy of the repository over
stand-ins that are noted as proved; for tools/checks/check_release."""
import os
import pathlib
import re
import shutil
import tempfile

from counting import right
from installed import needs, run, tree
from releases import TASKS, TOP, VERSION, manifest_of, unpacked

BUILT, ARCHIVE = "crates/bg_relay/out/bg_relay", "crates/bg_c/out/libbg_c.a"
# Stands for the program: it prints version and help, and names versions of the C library.
PROGRAM = f"""#!/bin/sh
# GLIBC_2.4 GLIBC_2.31 GLIBC_2.17
case $1 in
    --version) echo "bg_relay {VERSION}" ;;
    --help) cat '{TOP}/docs/help/bg_relay.txt' ;;
    *) cat "{TOP}/docs/help/$1.txt" ;;
esac
"""
# Copies the files of the repository as they stand, and commits them.
COPY = """
set -e
cd "$1"
git ls-files -coz --exclude-standard | while IFS= read -rd '' file; do
    if [ -e "$file" ]; then printf '%s\\0' "$file"; fi
done | tar --null -T - -cf - | tar -C "$2" -xf -
cd "$2"
git init -q
git add -A
git -c user.name=any -c user.email=any@example.org -c commit.gpgsign=false commit -qm any
"""
# Notes both stand-ins as proved.
NOTE = f"""
cd "$1"
. tools/program.sh
note_proved {BUILT} bg_relay "$(sum_of_sources bg_relay)"
note_proved {ARCHIVE} bg_c "$(sum_of_sources bg_c)"
sum_of_sources bg_relay
sum_of_sources bg_c
toolchain
"""
INTERFACE = re.search(r"#define BG_ABI (\d+)u", (TOP / "include/bg_relay.h").read_text())[1]
# What pkg-config reads, with the prefix, and the rest of the library's folder.
CONFIG = f"""prefix={{}}
libdir=${{{{prefix}}}}/lib{{}}
includedir=${{{{prefix}}}}/include
interface={INTERFACE}
Name: bg_relay
Description: a proved backgammon match relay, for x86-64-v2
Version: {VERSION}
Libs: -L${{{{libdir}}}} -lbg_relay
Cflags: -I${{{{includedir}}}}
"""
# A line of README.md, "What is proved".
PROVED = ("match, and each party's record is a prefix of it. Each entry of a seat in it answers the one action that the "
          "seat")
NO_LICENCE = "No licence has been chosen yet, so ask the owner"


def library():
    """Returns what stands for the library for C: an archive of the calls that the C of include/ makes, and none does
    anything."""
    source = (TOP / "include/handles.c").read_text()
    calls = sorted(set(re.findall(r"\bbg_proved_\w+(?=\()", source)))
    near = pathlib.Path(shutil.which("rt")).resolve().parents[1] / "toolchain/bin"
    compiler = shutil.which(os.environ.get("CC", "cc")) or near / "clang"
    archiver = shutil.which(os.environ.get("AR", "ar")) or near / "llvm-ar"
    with tempfile.TemporaryDirectory() as work:
        work = pathlib.Path(work)
        (work / "calls.c").write_text("".join(f"void {call}(void) {{}}\n" for call in calls))
        made = [run(compiler, "-fPIC", "-c", work / "calls.c", "-o", work / "calls.o"),
                run(archiver, "rcs", work / "calls.a", work / "calls.o")]
        right(all(status == 0 for status, _ in made), f"making what stands for the library: {made}")
        return (work / "calls.a").read_bytes()


class Copy:
    """A commit of the repository's files as they stand, with stand-ins that are noted as proved."""

    def __init__(self, top):
        self.top, self.made = top, top.parent / f"{top.name}-made"
        top.mkdir()
        status, said = run("bash", "-c", COPY, "sh", TOP, top)
        right(status == 0, f"copying the repository: status {status}: {said}")
        # (git keeps no owners, and no modes but whether a file may be run)
        (top / "docs/RULES.md").chmod(0o600)
        (top / "examples/embedding/judge.py").chmod(0o700)
        if os.geteuid() == 0:
            os.chown(top / "docs/RULES.md", 65534, 65534)
        self.first = self.git("rev-parse", "HEAD")
        for place, has in ((BUILT, PROGRAM.encode()), (ARCHIVE, library())):
            (top / place).parent.mkdir(parents=True)
            (top / place).write_bytes(has)
            (top / place).chmod(0o755)
        _, said = run("bash", "-c", NOTE, "sh", top, more={"BG_RELAY": ""})
        self.sources, self.library_sources, self.toolchain = [*said.splitlines(), "", "", ""][:3]
        self.kept = {path: path.read_bytes() for path in top.glob("crates/*/out/*")}

    def git(self, *words):
        """Runs git there, whatever the user's settings are, and returns what it printed."""
        given = ("user.name=any", "user.email=any@example.org", "commit.gpgsign=false")
        settings = [word for setting in given for word in ("-c", setting)]
        return run("git", "-C", self.top, *settings, *words)[1].strip()

    def restore(self):
        """Puts all back."""
        self.git("reset", "-q", "--hard", self.first)
        self.git("clean", "-fdq")
        for path, has in self.kept.items():
            path.write_bytes(has)

    def commit(self, texts):
        """Commits files with these texts."""
        for place, text in texts.items():
            (self.top / place).write_text(text)
        self.git("add", "-A")
        self.git("commit", "-qm", "any")

    def release(self, *words, more=None):
        """Returns the status of a release, what it said, and the files that it made."""
        given = {"BG_RELAY": "", **(more or {})}
        status, said = run(self.top / "tools/release", *words, self.made, more=given)
        return status, said, sorted(self.made.iterdir()) if self.made.is_dir() else []


def package_says(package, place):
    """What a file of a package has."""
    script = 'dpkg-deb --fsys-tarfile "$1" | tar -xO "./usr/$2"'
    return run("sh", "-c", script, "sh", package, place)[1]


def check_words(copy):
    """What a release says of what is proved and of the library, and that there is no licence."""
    status, said, made = copy.release()
    right(status == 0 and made, f"a release over stand-ins: status {status}: {said}")
    if status:
        return
    folder = unpacked(made[0], copy.top.parent / "words")
    head = manifest_of(folder / "MANIFEST")[0]
    for line in (f"bg_relay {VERSION} for x86_64-linux", f"revision   {copy.first}",
                 f"program    proved, of the sources {copy.sources}",
                 f"library    proved, of the sources {copy.library_sources}",
                 f"toolchain  {copy.toolchain}", PROVED):
        right(f"\n{line}\n" in f"\n{head}\n", f"the manifest does not say '{line}': {head}")
    right("- **Trusted:**" in head and NO_LICENCE in head, f"the manifest says {head}")
    text = (folder / "README.md").read_text()
    right("The program was proved." in text and "glibc 2.31 or" in text, f"its README.md: {text}")
    right(NO_LICENCE in text, f"its README.md says of the licence: {text}")
    config = (folder / "lib/pkgconfig/bg_relay.pc").read_text()
    right(CONFIG.format("${pcfiledir}/../..", "") == config, f"what pkg-config reads: {config}")
    page = (folder / "share/man/man3/bg_relay.3").read_text().splitlines()[0]
    right(page.endswith(f' "bg_relay {VERSION}"'), f"the manual page of the library: {page}")
    if needs("dpkg-deb", "what a package says"):
        lines = run("dpkg-deb", "-c", made[1])[1].splitlines()
        others = [line for line in lines if " root/root " not in line]
        right(not others, f"in the package is not root's: {others}")
        config = package_says(made[1], "lib/x86_64-linux-gnu/pkgconfig/bg_relay.pc")
        wanted = CONFIG.format("/usr", "/x86_64-linux-gnu")
        right(wanted == config, f"what pkg-config reads of the package: {config}")
        right(NO_LICENCE in package_says(made[1], "share/doc/bg-relay/copyright"),
              "the package does not say that there is no licence")


def check_owner(copy):
    """What a release has where the owner has written the licence and the maintainer."""
    copy.commit({"LICENSE": "Any.\n", "tools/releasing/maintainer": "Ann <ann@example.org>\n"})
    status, said, made = copy.release()
    right(status == 0, f"a release with a licence: status {status}: {said}")
    folder = unpacked(made[0], copy.top.parent / "licence")
    text = (folder / "README.md").read_text()
    right("The licence is in LICENSE" in text and NO_LICENCE not in text,
          f"with a licence its README.md says: {text}")
    right((folder / "share/doc/bg_relay/LICENSE").exists(), "the archive has no LICENSE")
    if needs("dpkg-deb", "what a package says"):
        said = run("dpkg-deb", "-I", made[1])[1]
        right("\n Maintainer: Ann <ann@example.org>\n" in said, f"the package says: {said}")
        text = package_says(made[1], "share/doc/bg-relay/copyright")
        right("\nAny.\n" in text and NO_LICENCE not in text, f"the package's copyright: {text}")
    copy.restore()


def check_refused(copy, what, wanted, *words, status=1, more=None):
    """A release is refused in these words, and nothing is made."""
    before = tree(copy.made)
    told, said, _ = copy.release(*words, more=more)
    right(told == status and wanted in said, f"{what}: status {told}: {said}")
    right(tree(copy.made) == before, f"{what}: something was made")
    copy.restore()


def check_refusals(copy):
    """What is refused, each after a change of the copy."""
    top = copy.top
    (top / "README.md").write_text("other\n")
    check_refused(copy, "a change", "has uncommitted changes, as of README.md")
    (top / "new").touch()
    check_refused(copy, "a new file", "has uncommitted changes, as of new")
    copy.commit({TASKS: f"{(top / TASKS).read_text()}\n// more\n"})
    check_refused(copy, "a changed source", "the sources changed since the program was proved")
    (top / BUILT).write_text(f"{PROGRAM}# another\n")
    check_refused(copy, "another program", "nothing says that the program which stands here")
    (top / f"{BUILT}.proved").unlink()
    check_refused(copy, "a program without a note", "nothing says that the program")
    (top / ARCHIVE).write_bytes((top / ARCHIVE).read_bytes() + b"\n")
    check_refused(copy, "another library", "the library for C does not stand proved")
    note = top / f"{ARCHIVE}.proved"
    note.write_text(re.sub("^toolchain .*", "toolchain any", note.read_text(), flags=re.M))
    places = os.environ["PATH"].split(":")
    path = ":".join(place for place in places if not pathlib.Path(place, "rt").exists())
    wanted = "program and library were not proved by one toolchain"
    check_refused(copy, "another toolchain", wanted, more={"PATH": path})
    check_refused(copy, "BG_RELAY", "BG_RELAY names a program", more={"BG_RELAY": str(top / BUILT)})
    check_refused(copy, "no program", "README.md is no program", "--not-proved", top / "README.md")
    other = copy.top.parent / "other"
    other.write_text(PROGRAM.replace(VERSION, "77"))
    other.chmod(0o755)
    wanted = f"says that it is bg_relay 77, and the sources are {VERSION}"
    check_refused(copy, "another version", wanted, "--not-proved", other)
    text = (top / "README.md").read_text()
    copy.commit({"README.md": text.replace("## What is proved", "## Proved")})
    check_refused(copy, "a README.md without claims", "README.md says no more what is proved")
    check_refused(copy, "two folders", "usage: tools/release", "other", status=2)
    check_refused(copy, "an unknown option", "usage: tools/release", "--proved", status=2)
    status, said = run(top / "tools/release", top / "README.md/out", more={"BG_RELAY": ""})
    is_right = status == 1 and "README.md/out can't be made: nothing was made" in said
    right(is_right, f"a folder in a file: status {status}: {said}")
    (top / ".git").rename(top / "git")
    status, said, _ = copy.release()
    right(status == 1 and "git names no revision" in said, f"without git: status {status}: {said}")
