"""Runs the toolchain's `rattle` over copies of crates, as `rt` does, and counts the processor time that it takes."""
import os
import pathlib
import re
import resource
import shutil
import signal
import subprocess
import tempfile
import time

PARTS = ("src", "specs", "proofs")


class Stop(Exception):
    """Why nothing can be tried."""


class TimeIsUp(Exception):
    """The processor time that was allowed is gone."""


class Checkout:
    """The crates of crates.txt, and the toolchain that `rt` names."""

    def __init__(self, top):
        self.top = pathlib.Path(top)
        self.uses, self.static = {}, set()
        for line in (self.top / "crates.txt").read_text(encoding="utf-8").splitlines():
            head, colon, used = line.split("#")[0].partition(":")
            if colon:
                name, *words = head.split()
                self.uses[name] = used.split()
                if "staticlib" in words:
                    self.static.add(name)
        page = subprocess.run(["rt", "doc"], capture_output=True, text=True).stdout.strip()
        if not os.path.isfile(page):
            raise Stop("`rt doc` names no page of the toolchain")
        self.kit = os.path.dirname(page)

    def folder(self, name):
        return self.top / "crates" / name

    def root(self, name):
        program = self.folder(name) / "src/main.rt"
        return "src/main.rt" if program.is_file() else "src/lib.rt"

    def own(self, name):
        """Returns the crates of the repository that a crate names."""
        return [used for used in self.uses[name] if used in self.uses]

    def of_kit(self, name):
        return ["std", *(used for used in self.uses[name] if used not in self.uses)]

    def below(self, name):
        """Returns the crates of the repository that a crate stands on, each behind those that it uses."""
        found = []
        for used in self.own(name):
            found += [it for it in [*self.below(used), used] if it not in found]
        return found

    def library(self, name):
        return self.folder(name) / "out/rlib" / f"{name}.rlib"

    def is_current(self, name):
        """Returns whether a crate's library is younger than its sources. One that `rt ci` kept is given another name
        in each run, which changes the time of its file's entry, and not that of its text."""
        form = self.library(name) / "format"
        files = [it for part in PARTS for it in self.folder(name).glob(f"{part}/**/*.*")]
        return form.is_file() and all(it.stat().st_mtime <= form.stat().st_ctime for it in files)

    def words(self, name, folders=None):
        """Returns rattle's words for a crate over the libraries below it, or, given the folders of these, over their
        sources."""
        words = ["--crate-name", name, self.root(name)]
        kit_names = self.of_kit(name)
        if folders:
            kit_names += [it for dep in self.below(name) for it in self.of_kit(dep)] + ["core"]
        for used in dict.fromkeys(kit_names):
            words += ["--extern", f"{used}={self.kit}/rlibs/{used}.rlib"]
        words += ["-L", f"dependency={self.kit}/rlibs"]
        for dep in self.below(name):
            if folders:
                uses = ",".join(dict.fromkeys(["core", *self.of_kit(dep), *self.own(dep)]))
                words += ["--lib", f"{dep}:{uses}={folders(dep)}/src/lib.rt"]
                continue
            if dep in self.own(name):
                words += ["--extern", f"{dep}={self.library(dep)}"]
            words += ["-L", f"dependency={self.library(dep).parent}"]
        words += ["--antt-project", f"{self.kit}/rattle/logic/antt-project.json"]
        words += ["--logic-built", f"{self.kit}/logic_built", "--jobs", "1", "--links", f"{name}="]
        return words + (["--crate-type", "staticlib"] if name in self.static else [])


class Clock:
    """The processor time that runs took, and how much they may take."""

    def __init__(self, minutes=None):
        self.seconds, self.most = 0.0, None if minutes is None else 60 * minutes
        self.child = None

    def left(self):
        return None if self.most is None else self.most - self.seconds

    def run(self, words, folder):
        """Runs a command in a folder, and returns its status, negative for a signal, and what it said."""
        left = self.left()
        if left is not None and left < 1:
            raise TimeIsUp
        limit = None if left is None else (int(left) + 1, int(left) + 1)
        begin = (lambda: resource.setrlimit(resource.RLIMIT_CPU, limit)) if limit else None
        with tempfile.TemporaryFile() as said:
            self.child = subprocess.Popen(words, cwd=folder, stdin=subprocess.DEVNULL, stdout=said,
                                          stderr=subprocess.STDOUT, preexec_fn=begin)
            try:
                _, status, used = os.wait4(self.child.pid, 0)
                self.child.returncode = os.waitstatus_to_exitcode(status)
            finally:
                if self.child.returncode is None:
                    self.child.kill()
            said.seek(0)
            text = said.read().decode(errors="replace")
        self.seconds += used.ru_utime + used.ru_stime
        left = self.left()
        if left is not None and left < 1 and self.child.returncode < 0:
            raise TimeIsUp
        return self.child.returncode, text


def copy_parts(folder, to, texts=None):
    """Copies the sources of a crate, with other texts in the place of some."""
    for part in PARTS:
        if os.path.isdir(f"{folder}/{part}"):
            shutil.copytree(f"{folder}/{part}", f"{to}/{part}")
    write(to, texts or {})


def write(folder, texts):
    for file, text in texts.items():
        pathlib.Path(folder, file).write_text(text, encoding="utf-8")


def copy_kept(folder, to):
    """Copies what a check kept, by links where it wrote what it proved: a check replaces such a file, and changes none."""

    def copy(one, other):
        if one.endswith(".oantt"):
            try:
                return os.link(one, other)
            except OSError:
                pass
        return shutil.copy2(one, other)

    if os.path.isdir(folder):
        shutil.copytree(folder, to, copy_function=copy)
    else:
        os.makedirs(to)
