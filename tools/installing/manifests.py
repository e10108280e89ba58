"""What an installation has put below a prefix, and how it comes there and goes away again. A manifest below the prefix
lists its files, with their sums, its links, and the folders that were made for them."""
import contextlib
import hashlib
import os
import pathlib
import shutil

PLACE = "share/bg_relay/manifest"


class ManifestError(Exception):
    """Why nothing was installed or taken away."""


def mark_of(path):
    """What a file or a link is known by."""
    if path.is_symlink():
        return f"link {os.readlink(path)}"
    if not path.is_file():
        return "neither"
    return f"file {hashlib.sha256(path.read_bytes()).hexdigest()}"


class Manifest:
    """The files and links by their paths below the prefix, each with its marks, and the folders that were made."""

    def __init__(self, root):
        self.root = pathlib.Path(root)
        self.file = self.root / PLACE
        self.marks, self.folders = {}, set()

    def add(self, path, mark):
        self.marks.setdefault(path, set()).add(mark)

    def read(self):
        """Takes what the manifest below the prefix has; fails where a line of it is none."""
        for number, line in enumerate(self.file.read_text(encoding="utf-8").splitlines(), 1):
            words = line.split("\t")
            is_inside = not words[-1].startswith("/") and ".." not in words[-1].split("/")
            if len(words) == 2 and words[0] == "folder" and is_inside:
                self.folders.add(words[1])
            elif len(words) == 3 and words[0] in ("file", "link") and is_inside:
                self.add(words[2], f"{words[0]} {words[1]}")
            else:
                raise ManifestError(f"{self.file}: line {number} is none of a manifest: nothing was done")
        return self

    def write(self):
        """Writes it, whole."""
        lines = [f"folder\t{path}" for path in sorted(self.folders)]
        for path, marks in sorted(self.marks.items()):
            lines += ["\t".join([*mark.split(" ", 1), path]) for mark in sorted(marks)]
        self.make_folders([str(pathlib.Path(PLACE).parent)])
        put_text(self.file, "\n".join(lines) + "\n")

    def missing_folders(self, paths):
        """The folders above these paths that are not there, the upper ones first."""
        above = {str(folder) for path in paths for folder in pathlib.Path(path).parents if str(folder) != "."}
        return sorted(folder for folder in above if not (self.root / folder).is_dir())

    def make_folders(self, folders):
        for folder in self.missing_folders(f"{folder}/any" for folder in folders):
            (self.root / folder).mkdir()

    def remove(self, paths):
        """Removes these files, and yields a line of each that is another now, and is left."""
        for path in sorted(paths):
            file = self.root / path
            if os.path.lexists(file):
                if mark_of(file) in self.marks[path]:
                    file.unlink()
                else:
                    yield f"{file} was changed since it was installed, and is left"

    def remove_folders(self, folders):
        """Removes those that are empty."""
        for folder in sorted(folders, reverse=True):
            with contextlib.suppress(OSError):
                (self.root / folder).rmdir()


def put(write, file):
    """Puts a file in its place, whole."""
    beside = file.with_name(f"{file.name}.new{os.getpid()}")
    try:
        write(beside)
        os.replace(beside, file)
    finally:
        with contextlib.suppress(OSError):
            beside.unlink()


def put_text(file, text):
    def write(beside):
        beside.write_text(text, encoding="utf-8")
        beside.chmod(0o644)
    put(write, file)


def put_copy(source, file):
    def write(beside):
        shutil.copyfile(source, beside, follow_symlinks=False)
        if not source.is_symlink():
            beside.chmod(0o755 if source.stat().st_mode & 0o100 else 0o644)
    put(write, file)


def install(stage, root):
    """Puts what a folder has below another one, and takes away what an older installation there had and this has not.
    Returns the paths, and lines of what was left.

    Fails, and does nothing, where something else is there already."""
    stage, old, new = pathlib.Path(stage), Manifest(root), Manifest(root)
    if old.file.exists():
        old.read()
    for path in sorted(stage.rglob("*")):
        if path.is_symlink() or path.is_file():
            new.add(str(path.relative_to(stage)), mark_of(path))
    others = [path for path in new.marks if path not in old.marks and os.path.lexists(new.root / path)]
    if others:
        raise ManifestError(f"{new.root / others[0]} is there, and no installation put it there: nothing was done")
    made = new.missing_folders([*new.marks, PLACE])
    new.root.mkdir(parents=True, exist_ok=True)
    new.folders = {folder for folder in old.folders if (new.root / folder).is_dir()} | set(made)
    # What is cut short stands in a manifest of both, by which all of it can be taken away.
    both = Manifest(root)
    both.folders = new.folders | old.folders
    for path, mark in [(path, mark) for each in (old, new) for path, marks in each.marks.items() for mark in marks]:
        both.add(path, mark)
    both.write()
    new.make_folders(made)
    for path in sorted(new.marks):
        put_copy(stage / path, new.root / path)
    left = list(old.remove(set(old.marks) - set(new.marks)))
    above = {str(folder) for path in new.marks for folder in pathlib.Path(path).parents}
    new.remove_folders(folder for folder in new.folders if folder not in above)
    new.folders = {folder for folder in new.folders if (new.root / folder).is_dir()}
    new.write()
    return sorted(new.marks), left


def uninstall(root):
    """Takes away what the manifest below a prefix lists. Returns the paths that are gone, and lines of what was left.

    Fails, and does nothing, where there is no manifest."""
    found = Manifest(root)
    if not found.file.exists():
        raise ManifestError(f"{found.file} is missing, so nothing is known to be installed there: nothing was done")
    found.read()
    there = [path for path in sorted(found.marks) if os.path.lexists(found.root / path)]
    left = list(found.remove(found.marks))
    found.file.unlink()
    found.remove_folders(found.folders)
    return [path for path in there if not os.path.lexists(found.root / path)], left
