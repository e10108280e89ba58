"""The folder of the pages that `board` keeps, as a web server reads it, and the sections of its index."""
import contextlib
import os
import re

ENDS = {".html": b"</html>\n", ".svg": b"</svg>\n"}
STARTS = {".html": b"<!DOCTYPE html>\n", ".svg": b"<svg "}


class Folder:
    """The folder of the pages, read as a web server reads it."""

    def __init__(self, path):
        self.path, self.torn, self.reads = path, set(), 0

    def read(self, name):
        """The bytes of a file; none where it is not there."""
        try:
            with open(os.path.join(self.path, name), "rb") as file:
                text = file.read()
        except FileNotFoundError:
            return b""
        self.reads += 1
        kind = os.path.splitext(name)[1]
        if kind in ENDS and not (text.startswith(STARTS[kind]) and text.endswith(ENDS[kind])):
            self.torn.add(name)
        return text

    def look(self):
        """Reads all files."""
        for name in os.listdir(self.path):
            if os.path.splitext(name)[1] in ENDS:
                self.read(name)

    def times(self):
        """When each file was written, by its name, but of those that are being put in their places."""
        times = {}
        for name in os.listdir(self.path):
            with contextlib.suppress(FileNotFoundError):
                times[name] = os.stat(os.path.join(self.path, name)).st_mtime_ns
        return times

    def names(self):
        return sorted(os.listdir(self.path))


def sections(index):
    """The names of the files in the section of those that are live, and of those that are over."""
    parts = re.split(rb"<h2>(live|over)</h2>", index)
    names = {part: re.findall(rb"<a href='([^']*)\.html'>", text) for part, text in zip(parts[1::2], parts[2::2])}
    return [name.decode() for name in names.get(b"live", [])], [name.decode() for name in names.get(b"over", [])]
