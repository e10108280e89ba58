"""Runs the program for the checks of processes: commands that end, processes that end at the latest with the check, and
matches to begin with."""
import os
import subprocess
import typing

from counting import right
from parties import MOST_SECONDS, Match, Typist, comes
from program import PROGRAM

# The processes that were started, and are to be ended with the check.
started = []


class Room(typing.NamedTuple):
    """What the checks share: a folder, in which each goes on with what those before it left, and the first of the ports
    that they may take."""

    top: str
    port: int


def run(*words, stdin=b"", seconds=MOST_SECONDS):
    """Runs the program; the status is none where it does not end in time."""
    try:
        return subprocess.run([PROGRAM, *words], input=stdin, capture_output=True, check=False, timeout=seconds)
    except subprocess.TimeoutExpired as late:
        return subprocess.CompletedProcess(late.cmd, None, late.stdout or b"", late.stderr or b"")


def check(name, status, on_stdout, on_stderr, *words, stdin=b""):
    """The command ends so; an empty word: nothing may be printed there."""
    done = run(*words, stdin=stdin)
    out, err = done.stdout.decode(errors="replace"), done.stderr.decode(errors="replace")
    told = all(word in text if word else not text for word, text in ((on_stdout, out), (on_stderr, err)))
    right(done.returncode == status and told, f"{name}: status {done.returncode}: {out[-300:]}{err[-300:]}")
    return done


def start(*words, environment=None):
    """Starts a process, whose standard input stays open where it reads one."""
    pipe = subprocess.PIPE
    stdin = pipe if words[0] == "play" else subprocess.DEVNULL
    started.append(subprocess.Popen([PROGRAM, *words], stdin=stdin, stdout=pipe, stderr=pipe, env=environment))
    return started[-1]


def sit_down(*command, environment=None):
    """A party whose screen is read."""
    typist = Typist(PROGRAM, *command, environment=environment)
    started.append(typist.process)
    return typist


def end(*processes):
    """Ends those that have not ended."""
    for process in processes:
        if process.returncode is None:
            process.kill()
            process.communicate()


def end_all():
    """Ends all that were started."""
    end(*started)


def make(folder, port):
    """Makes a match to one point in a folder, with no other beside it."""
    os.makedirs(os.path.dirname(folder), exist_ok=True)
    run("new", "--length", "1", "--port", str(port), "--dir", folder)
    return Match(folder)


def transcript(folder, party=0):
    """The lines of the entries that a party has saved."""
    files = [f"{folder}/party-{party}.{slot}" for slot in (0, 1)]
    return run("show", "--transcript", *files).stdout.decode().splitlines()[1:]


def opener(folder):
    """The player who won the opening, when the referee has saved it."""
    if not comes(lambda: transcript(folder)):
        raise TimeoutError("the referee saves no opening")
    _, of_x, of_o = transcript(folder)[0].split()
    return "X" if of_x > of_o else "O"
