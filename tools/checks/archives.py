"""What an archive of tools/release has, and how its script installs it; for
tools/checks/check_release."""
import hashlib
import re
import shlex
import subprocess

from counting import right
from installed import needs, run, tree
from releases import TOP, VERSION, manifest_of

EMBEDDING = TOP / "examples/embedding"
# What each archive has below its folder; of the library besides.
FILES = {
    "MANIFEST", "README.md", "install", "bin/bg_relay", "libexec/bg_relay/bg_relay",
    "share/bg_relay/build", "share/man/man1/bg_relay.1",
    "share/bash-completion/completions/bg_relay", "share/zsh/site-functions/_bg_relay",
    "share/fish/vendor_completions.d/bg_relay.fish",
}
FILES |= {f"share/doc/bg_relay/{name}" for name in (
    "README.md", "CHANGELOG.md", "SECURITY.md", "docs/COMPATIBILITY.md", "docs/OPERATING.md",
    "examples/opening.txt", "examples/service/bg_relay-referee@.service",
    "examples/service/bg_relay-page@.service", "examples/service/bg_relay-board.service", "include/heap.c",
    "include/handles.c", "include/names.c")}
LIBRARY = {
    "include/bg_relay.h", "lib/libbg_relay.a", "lib/libbg_relay.so", "lib/libbg_relay.so.2",
    "lib/pkgconfig/bg_relay.pc", "share/man/man3/bg_relay.3",
}
# The list of what is installed, below a prefix, and the sum of an empty file.
LIST = "share/bg_relay/manifest"
EMPTY = hashlib.sha256(b"").hexdigest()
# A match that a program plays and judges: its first argument.
MATCH = ('"$1" sim --seed 7 --length 1 --watchers 0 --steps 3000 | sed "/^party /,\\$d"'
         ' | "$1" judge | tail -n 1')


def check_links(documents):
    """Each link of a document leads to a file that is there."""
    for page in documents.rglob("*.md"):
        text = re.sub(r"^```.*?^```$", "", page.read_text(), flags=re.M | re.S)
        for target in re.findall(r"\]\(([^)#\s]+)[^)]*\)", text):
            is_right = "://" in target or (page.parent / target).exists()
            right(is_right, f"{page}: nothing is at {target}")


def check_archive(release, folder):
    """What the archive has, what it says of proof, and that its manifest names all of it."""
    files = {path for path, has in tree(folder).items() if has is not None}
    lacks = (FILES | (LIBRARY if release.with_library else set())) - files
    right(not lacks, f"the archive lacks {sorted(lacks)}")
    if not release.with_library:
        right(not LIBRARY & files, f"the archive has of the library {sorted(LIBRARY & files)}")
    head, sums = manifest_of(folder / "MANIFEST")
    right(set(sums) == files - {"MANIFEST"}, f"its manifest names {sorted(set(sums) ^ files)}")
    done = subprocess.run(["sha256sum", "--check", "--strict", "--quiet", "MANIFEST"], cwd=folder,
                          text=True, capture_output=True, check=False)
    right(done.returncode == 0, f"its manifest has other sums: {done.stdout}{done.stderr}")
    right(("NOT PROVED" in head) == release.is_trial, f"the manifest says: {head}")
    text = (folder / "README.md").read_text()
    right(("NOT PROVED" in text) == release.is_trial, f"its README.md says: {text}")
    right("@" not in text, f"in its README.md something was not filled in: {text}")
    check_links(folder / "share/doc/bg_relay")


def check_example(prefix):
    """A program in C is compiled as pkg-config says, and plays by the installed library."""
    folder = prefix.parent / "example"
    folder.mkdir()
    config = {"PKG_CONFIG_PATH": str(prefix / "lib/pkgconfig")}
    said = run("pkg-config", "--modversion", "bg_relay", more=config)
    right(said == (0, f"{VERSION}\n"), f"pkg-config says of the version {said}")
    flags = run("pkg-config", "--cflags", "--libs", "bg_relay", more=config)[1]
    files = [EMBEDDING / f"{name}.c" for name in ("relay", "slots", "calls")]
    status, said = run("cc", "-std=c99", *files, *shlex.split(flags), "-o", folder / "relay")
    right(status == 0, f"compiling by {flags}: {said}")
    if status == 0:
        more = {"LD_LIBRARY_PATH": str(prefix / "lib")}
        said = run(folder / "relay", "5", "1", folder, more=more)
        right(said == (0, (EMBEDDING / "relay.expected").read_text()), f"the example in C: {said}")


def check_install(release, folder):
    """The archive's script installs it, over nothing, and over an older installation of its own,
    and what is installed runs. Returns the prefix."""
    prefix, install = release.room / "some where", folder / "install"
    status, said = run(install, prefix)
    right(status == 0, f"an installation: status {status}: {said}")
    wanted = {path: has for path, has in tree(folder).items() if "/" in path or has is None}
    first = tree(prefix)
    now = {path: has for path, has in first.items() if path != LIST}
    differ = [path for path in now.keys() | wanted.keys() if now.get(path) != wanted.get(path)]
    right(LIST in first and not differ, f"an installation differs in {differ}")
    release.check_version(prefix / "bin/bg_relay")
    status, said = run("bash", "-c", MATCH, "sh", prefix / "bin/bg_relay")
    right(status == 0 and re.fullmatch(r"ok \d+\n", said), f"a match: status {status}: {said}")
    if release.with_library and needs("cc", "the example in C") and needs("pkg-config", "that too"):
        check_example(prefix)
    (prefix / "share/old").mkdir()
    (prefix / "share/old/page").write_text("")
    with (prefix / LIST).open("a") as file:
        file.write(f"folder\tshare/old\nfile\t{EMPTY}\tshare/old/page\n")
    status, said = run(install, prefix)
    right(status == 0 and tree(prefix) == first, f"over an older one: status {status}: {said}")
    return prefix


def check_removal(folder, prefix):
    """The archive's script takes away what it installed, and neither takes away nor writes over
    what others put there or changed."""
    install = folder / "install"
    (prefix / "bin/other").write_text("other\n")
    (prefix / "share/bg_relay/build").write_text("other\n")
    status, said = run(install, "--remove", prefix)
    right(status == 1 and "build was changed" in said, f"a changed file: status {status}: {said}")
    left = {"bin", "bin/other", "share", "share/bg_relay", "share/bg_relay/build"}
    right(set(tree(prefix)) == left, f"when it is taken away, there is {sorted(tree(prefix))}")
    status, said = run(install, prefix)
    right(status == 1 and "no installation put it there: nothing was done" in said
          and set(tree(prefix)) == left, f"over a file of others: status {status}: {said}")


def check_mixed(release, folder):
    """The archive's script and those of the repository take each other's installations for their
    own; DESTDIR; what was damaged since it was unpacked."""
    prefix, install = release.room / "mixed", folder / "install"
    words = ["--not-proved"] if release.is_trial else []
    words += [] if release.with_library else ["--without-library"]
    run(TOP / "tools/install", *words, prefix)
    first = set(tree(prefix))
    status, said = run(install, prefix)
    right(status == 0 and first < set(tree(prefix)), f"over tools/install: {status}: {said}")
    status, said = run(TOP / "tools/install", *words, prefix)
    right(status == 0 and set(tree(prefix)) == first, f"under tools/install: {status}: {said}")
    run(install, prefix)
    status, said = run(TOP / "tools/uninstall", prefix)
    right(status == 0 and not tree(prefix), f"tools/uninstall after it: {status}: {said}")
    status, said = run(install, prefix, more={"DESTDIR": str(release.room / "below")})
    is_right = not tree(prefix) and tree(f"{release.room}/below{prefix}")
    right(status == 0 and is_right, f"DESTDIR: status {status}: {said}")
    status, said = run(install, "--remove", prefix)
    right(status == 1 and "nothing was done" in said, f"what is not there: {status}: {said}")
    with (folder / "share/doc/bg_relay/SECURITY.md").open("a") as file:
        file.write("more\n")
    status, said = run(install, prefix)
    is_right = status == 1 and "SECURITY.md: FAILED" in said and not tree(prefix)
    right(is_right, f"a damaged file: status {status}: {said}")
