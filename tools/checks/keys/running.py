"""Runs the program for the check of keys: commands, processes that are ended at last, matches, and their files."""
import os
import subprocess

from counting import right
from parties import MOST_SECONDS, Match, comes
from program import PROGRAM

# The key files of a match, which `new` hands out.
KEY_FILES = ("match-x", "match-o", "match-watch")
# All processes that were begun.
started = []


def run(*words, seconds=MOST_SECONDS):
    """Runs the program; the status is none where it does not end in time."""
    try:
        return subprocess.run([PROGRAM, *words], capture_output=True, text=True, check=False, timeout=seconds)
    except subprocess.TimeoutExpired as late:
        return subprocess.CompletedProcess(late.cmd, None, "", "")


def start(*words):
    started.append(subprocess.Popen([PROGRAM, *words], stdin=subprocess.DEVNULL, stdout=subprocess.PIPE,
                                    stderr=subprocess.PIPE))
    return started[-1]


def end(*processes):
    for process in processes:
        if process.returncode is None:
            process.kill()
            process.communicate()


def make(folder, port):
    """Makes a match of length 1, and gives it."""
    os.makedirs(os.path.dirname(folder), exist_ok=True)
    done = run("new", "--length", "1", "--port", str(port), "--dir", folder)
    right(done.returncode == 0, f"no match was made: {done.stderr}")
    return Match(folder)


def begin_all(table, folder, meanwhile=lambda: None):
    """The processes of all parties of a match: referee, watcher, and automatic players, whose folders lie in this one. Before
    the others begin, something may be done to the referee."""
    referee = start("referee", "--dir", table)
    meanwhile()
    return [referee, start("watch", "--match", f"{table}/match-watch"),
            *(start("auto", "--player", name, "--match", f"{table}/match-{name.lower()}", "--dir", f"{folder}/{name}")
              for name in "XO")]


def transcript(folder, party=0):
    """The lines of the entries that a party has saved."""
    files = [f"{folder}/party-{party}.{slot}" for slot in (0, 1)]
    return run("show", "--transcript", *files).stdout.splitlines()[1:]


def opened(table):
    """Waits until a referee has saved the opening, and gives the seat that is to move."""
    right(comes(lambda: transcript(table)), "the referee saves no opening")
    _, of_x, of_o = transcript(table)[0].split()
    return 1 if of_x > of_o else 2


def text_of(path):
    with open(path, "rb") as file:
        return file.read()


def put(path, text):
    """Writes this in the place of what stands there; nothing where there is to be none."""
    if os.path.exists(path):
        os.remove(path)
    if text is not None:
        with open(path, "wb") as file:
            file.write(text)
