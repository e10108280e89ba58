"""Runs the program for the check of `board`: commands, processes that are killed, matches, and what they take."""
import signal
import subprocess
import time

import parties
from counting import right
from program import PROGRAM

MOST_SECONDS = 600
# How long `board` may take to see what was saved, and to write it: some seconds, and more on a busy machine.
MOST_DELAY = 120


def run(*words, text=None):
    """What the program prints, its standard error, and its status."""
    ran = subprocess.run([PROGRAM, *words], input=text, capture_output=True, text=True, timeout=MOST_SECONDS, check=False)
    return ran.stdout, ran.stderr, ran.returncode


def begin(*words, errors=subprocess.DEVNULL):
    """A process of the program, whose prints nobody reads."""
    return subprocess.Popen([PROGRAM, *words], stdout=subprocess.DEVNULL, stderr=errors)


def kill(*processes):
    for process in processes:
        process.send_signal(signal.SIGKILL)
        process.wait()


def make(folder, port, *words):
    """A match in a new folder."""
    _, error, status = run("new", "--port", str(port), "--dir", folder, *words)
    right(status == 0, f"new: {status}: {error}")


def transcript_of(folder):
    """The transcript of what a referee has saved."""
    text, error, status = run("show", "--transcript", *(f"{folder}/party-0.{slot}" for slot in (0, 1)))
    right(status == 0, f"show: {status}: {error}")
    return text


def comes(holds, seconds=MOST_DELAY):
    """Whether this comes to hold within so many seconds."""
    return parties.comes(holds, seconds)


def share_of(process, seconds):
    """The share of a processor that a process takes in these seconds."""
    before, since = parties.seconds_of(process), time.monotonic()
    time.sleep(seconds)
    return (parties.seconds_of(process) - before) / (time.monotonic() - since)


def least_share(process, seconds, most):
    """The share that a process comes to take where it should take less than this: it may come to rest late."""
    shares = []
    while len(shares) < 10 and min(shares, default=most) >= most:
        shares.append(share_of(process, seconds))
    return min(shares)
