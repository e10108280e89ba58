"""What a package of tools/release has, and what dpkg and lintian make of it; for
tools/checks/check_release."""
import re

from counting import right
from installed import needs, run, tree
from releases import VERSION

DOCUMENTS = "usr/share/doc/bg-relay"
FILES = ("usr/bin/bg_relay", "usr/libexec/bg_relay/bg_relay", "usr/share/man/man1/bg_relay.1.gz",
         f"{DOCUMENTS}/copyright", f"{DOCUMENTS}/MANIFEST", f"{DOCUMENTS}/changelog.gz")
LIBRARY = tuple(f"usr/lib/x86_64-linux-gnu/{name}" for name in (
    "libbg_relay.a", "libbg_relay.so.2", "pkgconfig/bg_relay.pc"))


class Root:
    """An empty root, into which dpkg installs."""

    def __init__(self, folder):
        self.folder = folder
        for name in ("info", "updates", "triggers"):
            (folder / "var/lib/dpkg" / name).mkdir(parents=True)
        for name in ("status", "available"):
            (folder / "var/lib/dpkg" / name).touch()

    def dpkg(self, *words):
        """Runs dpkg there, where no other package is, by whatever user."""
        forced = ("--force-depends", "--force-not-root", "--force-bad-path")
        return run("dpkg", f"--root={self.folder}", "--log=/dev/null", *forced, *words)

    def files(self):
        return {path for path in tree(self.folder) if path.split("/")[0] != "var"}


def later(package, room):
    """Returns a package of a later version, which has one file less."""
    folder, made = room / "later", room / "later.deb"
    run("dpkg-deb", "-R", package, folder)
    control = folder / "DEBIAN/control"
    text = re.sub(r"^Version: .*", "Version: 99", control.read_text(), flags=re.M)
    control.write_text(text)
    (folder / DOCUMENTS / "SECURITY.md").unlink()
    run("dpkg-deb", "--root-owner-group", "-Zgzip", "-z1", "-b", folder, made)
    return made


def check_contents(release, package):
    """What the package says of itself, and which files it has."""
    said = run("dpkg-deb", "-I", package)[1]
    version = re.escape(package.name.split("_")[2])
    for line in ("Package: bg-relay", f"Version: {version}", "Architecture: amd64",
                 r"Depends: libc6 \(>= 2\.\d+\).*", "Maintainer: .+ <.+@.+>"):
        right(re.search(rf"^ {line}$", said, re.M), f"the package does not say {line}: {said}")
    right(("NOT PROVED" in said) == release.is_trial, f"the package says: {said}")
    said = run("dpkg-deb", "-c", package)[1]
    others = [line for line in said.splitlines() if " root/root " not in line]
    right(not others, f"in the package is not root's: {others}")
    files = set(re.findall(r" \./(\S+[^/])(?: -> .*)?$", said, re.M))
    lacks = set(FILES + (LIBRARY if release.with_library else ())) - files
    right(not lacks, f"the package lacks {sorted(lacks)}")


def check_package(release, package):
    """What the package has; that dpkg installs, upgrades and removes it; what lintian says."""
    check_contents(release, package)
    if needs("lintian", "what it says of the package"):
        status, said = run("lintian", "--fail-on", "error", package)
        right(status == 0, f"lintian: status {status}: {said}")
        for warning in re.findall(r"^W: .*", said, re.M):
            print(warning)
    if not needs("dpkg", "the installation of the package"):
        return
    root = Root(release.room / "root")
    status, said = root.dpkg("-i", package)
    right(status == 0, f"dpkg -i: status {status}: {said}")
    release.check_version(root.folder / "usr/bin/bg_relay")
    script = f'cd "$1" && sha256sum --check --quiet {DOCUMENTS}/MANIFEST'
    said = run("sh", "-c", script, "sh", root.folder)
    right(said == (0, ""), f"the package's manifest has other sums: {said}")
    files = root.files()
    status, said = root.dpkg("-i", later(package, release.room))
    gone = files - root.files()
    right(status == 0 and gone == {f"{DOCUMENTS}/SECURITY.md"}, f"an upgrade took {gone}: {said}")
    status, said = root.dpkg("-r", "bg-relay")
    right(status == 0 and not root.files(), f"dpkg -r leaves {sorted(root.files())}: {said}")
    status, said = root.dpkg("-P", "bg-relay")
    known = (root.folder / "var/lib/dpkg/status").read_text()
    right(status == 0 and "bg-relay" not in known, f"dpkg -P: status {status}: {said}")
