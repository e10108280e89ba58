"""Matches between processes, played by themselves while a driver does something to them; and what their saved texts have
(docs/FORMATS.md, "Saved files")."""
import functools
import os
import shutil
import signal
import subprocess
import sys
import time

sys.dont_write_bytecode = True
sys.path.insert(0, os.path.join(os.path.dirname(os.path.realpath(__file__)), "..", "checks"))

from ports import free_ports
from program import PROGRAM, TOP

LENGTHS = [1, 2, 3, 4, 5, 6, 7]
# For so long a state is waited for that comes at once where the machine is idle, and the end of a match.
MOST_SECONDS = 3600
PLAYERS = ["referee", "X", "O"]
OF_SILENCE = ("bg_relay: no word from the referee", "bg_relay: the referee is heard again")
WATCHERS = ["watcher A", "watcher B"]


class Wrong(Exception):
    """What was found wrong."""


@functools.cache
def port_of_matches():
    """The first port of each match of a driver, which plays one after the other."""
    return free_ports(20000, 16)


def wait_for(holds, what):
    """Waits until this holds."""
    until, is_late = time.monotonic() + MOST_SECONDS, False
    while not holds():
        if is_late:
            raise Wrong(what)
        time.sleep(0.01)
        is_late = time.monotonic() > until


def build_preload(name, folder):
    """The library to be preloaded that this source beside here makes; None where there is no compiler."""
    compiler = shutil.which("cc") or shutil.which("gcc")
    if compiler is None:
        return None
    source = os.path.join(TOP, "tools", "kills", f"{name}.c")
    library = os.path.join(folder, f"{name}.so")
    subprocess.run([compiler, "-shared", "-fPIC", "-O1", "-o", library, source, "-ldl"], check=True)
    return library


def entries_in(path):
    """What entries_of says of a file; None where there is none."""
    try:
        with open(path, "rb") as file:
            return entries_of(file.read())
    except FileNotFoundError:
        return None


def entries_of(text):
    """The number of a saved text, how many entries it has, and their bytes; None where it is not whole."""
    if len(text) < 24 or text[:4] != b"BGS2":
        return None
    save, at = int.from_bytes(text[15:19], "big"), 20
    if text[19]:
        code = text[24]
        at = 24 + (2 + 2 * text[25] if code == 6 else 2 if code == 7 else 1)
    if len(text) < at + 4:
        return None
    count, body = int.from_bytes(text[at:at + 4], "big"), text[at + 4:]
    return (save, count, body) if is_whole(count, body) else None


def is_whole(count, body):
    """Whether these bytes are so many entries."""
    at = 0
    for _ in range(count):
        if at >= len(body):
            return False
        code = body[at]
        at += {1: 3, 2: 3, 7: 2}.get(code, 1) if code != 6 else 2 + 2 * body[at + 1] if at + 1 < len(body) else 2
    return at == len(body)


def newest(folder, party):
    """What entries_of says of the newest save of a party. While one file stays as it is, no more than one save begins; else
    both are read anew, as a file that is being written looks as if it was not whole."""
    paths = [f"{folder}/party-{party}.{slot}" for slot in (0, 1)]
    found = [entries_in(path) for path in paths]
    while (first := entries_in(paths[0])) != found[0]:
        found = [first, entries_in(paths[1])]
    return max((text for text in found if text), default=None)


class Match:
    """A match between processes in a folder of its own: the referee, two automatic players, and who watches."""

    def __init__(self, top, number, rng, watchers=()):
        self.rng, self.names = rng, [*PLAYERS, *watchers]
        self.top = os.path.join(top, str(number))
        self.length = LENGTHS[number % len(LENGTHS)]
        self.rules = rng.choice([1, 2])
        os.mkdir(self.top)
        words = ["--length", str(self.length), "--rules", str(self.rules), "--port", str(port_of_matches())]
        done = subprocess.run([PROGRAM, "new", *words, "--dir", f"{self.top}/referee"], capture_output=True, check=False)
        if done.returncode != 0:
            raise Wrong(f"no match was made: {done.stderr.decode()}")
        self.hand_out()
        self.running, self.waiting, self.done = {}, dict.fromkeys(self.names, 0.0), set()
        self.kills, self.known = 0, b""

    def hand_out(self):
        """Hands the key files out."""
        for name in ("x", "o", "watch"):
            shutil.copy(f"{self.top}/referee/match-{name}", f"{self.top}/match-{name}")

    def command(self, name):
        if name == "referee":
            return ["referee", "--quiet", "--dir", f"{self.top}/referee"]
        if name in PLAYERS:
            return ["auto", "--player", name, "--match", f"{self.top}/match-{name.lower()}", "--dir", f"{self.top}/{name}"]
        return ["watch", "--quiet", "--match", f"{self.top}/match-watch", "--transcript", f"{self.top}/{name}.transcript"]

    def environment(self, name):
        """What a process is started with: the driver's own environment, or more."""
        return dict(os.environ)

    def start(self, name):
        with open(f"{self.top}/{name}.out", "wb") as out, open(f"{self.top}/{name}.err", "ab") as err:
            self.running[name] = subprocess.Popen([PROGRAM, *self.command(name)], stdin=subprocess.DEVNULL, stdout=out,
                                                  stderr=err, env=self.environment(name))

    def look(self):
        """The referee's saved record only grows."""
        found = newest(f"{self.top}/referee", 0)
        saved = found[2] if found else b""
        if not saved.startswith(self.known):
            raise Wrong("the referee lost or changed an entry that it had saved")
        if self.is_saved(found):
            self.known = saved

    def is_saved(self, found):
        """Whether a text that is found in the referee's folder stays there."""
        return True

    def collect(self, now):
        """Whoever was killed is started again soon; the others end with status 0."""
        for name, process in list(self.running.items()):
            status = process.poll()
            if status is None:
                continue
            del self.running[name]
            if status == 0:
                self.done.add(name)
            elif status == -signal.SIGKILL:
                self.kills += 1
                self.waiting[name] = now + self.rng.uniform(0, 0.3)
            else:
                raise Wrong(f"{name} ended with status {status}: {self.said(name)}")

    def disturb(self):
        """Does something to the match that is played."""

    def play(self):
        """Plays the match to its end."""
        begun = time.time()
        while len(self.done) < len(self.names):
            now = time.time()
            if now - begun > MOST_SECONDS:
                raise Wrong("the match did not end")
            for name, at in list(self.waiting.items()):
                if now >= at:
                    del self.waiting[name]
                    self.start(name)
            time.sleep(self.rng.uniform(0.01, 0.1))
            self.collect(now)
            self.look()
            if self.running and "referee" not in self.done:
                self.disturb()
            if "referee" in self.done and len(self.done) < len(self.names):
                # Somebody was away too long: the referee is needed once more.
                self.done.discard("referee")
                self.start("referee")
        self.look()

    def said(self, name):
        """What a process said, but of a referee that was killed and that it didn't hear for a while."""
        with open(f"{self.top}/{name}.err", encoding="utf-8", errors="replace") as file:
            return "".join(line for line in file if not line.startswith(OF_SILENCE))

    def check_end(self):
        """Checks what is left of the match, and returns how many entries it has."""
        whole = newest(f"{self.top}/referee", 0)
        for party, name in ((1, "X"), (2, "O")):
            seat = newest(f"{self.top}/{name}", party)
            if seat is None or not whole[2].startswith(seat[2]):
                raise Wrong(f"{name} saved what the referee does not have")
        texts = {}
        for name in self.names[1:]:
            with open(f"{self.top}/{name}.out", "rb") as file:
                texts[name] = file.read()
        if len(set(texts.values())) != 1:
            raise Wrong("the transcripts differ")
        judged = subprocess.run([PROGRAM, "judge"], input=texts["X"], capture_output=True, check=False)
        verdict = judged.stdout.decode().splitlines()[-1]
        if judged.returncode != 0 or verdict != f"ok {whole[1]}":
            raise Wrong(f"judge says {verdict}, and the referee has {whole[1]} entries")
        return whole[1]

    def end(self):
        for process in self.running.values():
            process.kill()
            process.wait()
