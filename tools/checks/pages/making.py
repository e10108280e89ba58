"""The program that draws pictures, pages and an index, over the sources as they are: compiled, and not proved."""
import pathlib
import re
import shutil
import subprocess
import sys
import tempfile

import program

TOP = pathlib.Path(program.TOP)
DRAWING = pathlib.Path(__file__).with_name("drawing.rt.txt")


def make(cases):
    """What the program draws of each case."""
    with tempfile.TemporaryDirectory() as work:
        copy = pathlib.Path(work)
        shutil.copytree(TOP / "crates", copy / "crates", ignore=shutil.ignore_patterns("out"))
        below = re.search(r"^bg_picture:(.*)$", (TOP / "crates.txt").read_text(), re.M)[1]
        with open(copy / "crates.txt", "w", encoding="utf-8") as it:
            it.write((TOP / "crates.txt").read_text() + f"see_pages: bg_picture bg_ids{below} anyhow\n")
        shutil.copy(TOP / "HANDLES", copy)
        own = copy / "crates/see_pages"
        (own / "src").mkdir(parents=True)
        shutil.copy(DRAWING, own / "src/main.rt")
        (copy / "cases").mkdir()
        for name, text in cases.items():
            (copy / "cases" / name).write_text(text)
        command = ["rt", "try", "--cases", str(copy / "cases"), "--seconds", "900"]
        run = subprocess.run(command, cwd=own, capture_output=True, text=True, check=False)
        parts = re.split(r"^== (\S+)\n", run.stdout, flags=re.M)
        if len(parts) != 2 * len(cases) + 1:
            sys.exit(f"see_pages: the program drew nothing:\n{run.stdout[-3000:]}{run.stderr[-3000:]}")
        made = dict(zip(parts[1::2], parts[2::2]))
        if missing := [name for name, text in made.items() if not text.startswith("<")]:
            sys.exit(f"see_pages: not drawn: {', '.join(missing)}:\n{run.stderr[-3000:]}")
        return made
