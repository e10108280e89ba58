"""How a release is asked for, and how what it made is read; for tools/checks/check_release."""
import dataclasses
import pathlib
import re
import tarfile

from counting import right
from installed import needs, run

TOP = pathlib.Path(__file__).resolve().parents[2]
TASKS = "crates/bg_options/src/tasks.rt"
VERSION = re.search(r'VERSION: &str = "(.*)"', (TOP / TASKS).read_text())[1]


@dataclasses.dataclass
class Release:
    """A release that is tried: where, and how it is asked for."""

    room: pathlib.Path
    words: list
    with_library: bool

    @property
    def is_trial(self):
        return bool(self.words)

    def names(self):
        """The files that it is made of."""
        names = {f"bg_relay-{VERSION}{'-not-proved' * self.is_trial}-x86_64-linux.tar.gz"}
        if needs("dpkg-deb", "the package"):
            names.add(f"bg_relay_{VERSION}{'~not.proved' * self.is_trial}_amd64.deb")
        return names

    def check_version(self, program):
        """The installed program says what it is."""
        proof = ".*, not proved" if self.is_trial else "[0-9a-f]{12}, proved"
        status, said = run(program, "--version")
        is_right = re.fullmatch(rf"bg_relay {re.escape(VERSION)} \(sources {proof}\)\n", said)
        right(status == 0 and is_right, f"{program} says: {said}")


def manifest_of(file):
    """Returns the lines before the sums of a manifest, without their marks, and the sums."""
    lines = file.read_text().splitlines()
    head = "\n".join(line[2:] for line in lines if line.startswith("#"))
    return head, {line[66:]: line[:64] for line in lines if not line.startswith("#")}


def unpacked(archive, folder):
    """Unpacks an archive, and returns the one folder that is in it, as its name says."""
    folder.mkdir()
    with tarfile.open(archive) as opened:
        members = opened.getmembers()
    owners = {(each.uid, each.gid, each.uname, each.gname) for each in members}
    right(owners == {(0, 0, "", "")}, f"owners in {archive.name}: {owners}")
    right(len({each.mtime for each in members}) == 1, f"in {archive.name} are several times")
    modes = {each.mode for each in members if not each.issym()}
    right(modes == {0o755, 0o644}, f"modes in {archive.name}: {list(map(oct, modes))}")
    status, said = run("tar", "-C", folder, "-xzf", archive)
    right(status == 0, f"tar of {archive.name}: status {status}: {said}")
    name = archive.name.removesuffix("-x86_64-linux.tar.gz")
    right([path.name for path in folder.iterdir()] == [name], f"{archive.name} has not one folder")
    return folder / name
