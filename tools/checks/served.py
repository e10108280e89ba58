"""A server of matches for checks, and players who play by its sockets whatever becomes of it."""
import json
import random
import signal
import socket
import subprocess
import threading
import time
import urllib.error
import urllib.request

from parties import MOST_SECONDS, seconds_of
from program import PROGRAM
from web_sockets import Closed, Socket


class Served:
    """A server over a folder, which can be killed and begun again."""

    def __init__(self, folder, port, command=None):
        self.folder, self.port = folder, port
        self.command = command or [PROGRAM, "serve", "--dir", folder, "--port", str(port)]
        self.process = None
        # Between these times it began.
        self.began = self.listened = None

    def begin(self):
        self.began = time.time()
        self.process = subprocess.Popen(self.command, stdout=subprocess.DEVNULL, stderr=subprocess.PIPE)
        while time.time() < self.began + MOST_SECONDS:
            try:
                socket.create_connection(("127.0.0.1", self.port), timeout=1).close()
                self.listened = time.time()
                return self
            except OSError:
                if self.process.poll() is not None:
                    raise SystemExit("the server has ended: " + self.process.stderr.read().decode())
                time.sleep(0.05)
        raise SystemExit("the server does not listen")

    def kill(self):
        self.process.send_signal(signal.SIGKILL)
        self.process.wait()

    def url(self, path):
        return f"http://127.0.0.1:{self.port}{path}"

    def ask(self, path, body=None, headers=None, method=None, seconds=MOST_SECONDS):
        """The status of an answer, its headers and its bytes."""
        request = urllib.request.Request(self.url(path), data=body, headers=headers or {}, method=method)
        try:
            with urllib.request.urlopen(request, timeout=seconds) as answer:
                return answer.status, answer.headers, answer.read()
        except urllib.error.HTTPError as error:
            return error.code, error.headers, error.read()

    def make(self, **wanted):
        status, _, text = self.ask("/matches", json.dumps(wanted).encode(), {"content-type": "application/json"})
        if status != 201:
            raise SystemExit(f"no match was made: {status} {text.decode()}")
        return json.loads(text)

    def resident(self):
        """How many kilobytes the process has in memory."""
        with open(f"/proc/{self.process.pid}/status") as status:
            return next(int(line.split()[1]) for line in status if line.startswith("VmRSS"))

    def seconds(self):
        """How many seconds of a processor it has taken."""
        return seconds_of(self.process)


def words_of(steps):
    """The words of a turn."""
    name = {0: "off", 25: "bar"}
    return " ".join(["move"] + [f"{name.get(a, a)}-{name.get(b, b)}" for a, b in steps])


def steps_by(mine, theirs, pips):
    """The steps by one die."""
    highest = max((point for point in range(26) if mine[point]), default=0)
    for start in range(25, 0, -1):
        if not mine[start] or (mine[25] and start != 25):
            continue
        end = max(start - pips, 0)
        if end and theirs[25 - end] > 1:
            continue
        if not end and (highest > 6 or (start < pips and start != highest)):
            continue
        yield start, end


def after_step(mine, theirs, step):
    mine, theirs = list(mine), list(theirs)
    mine[step[0]] -= 1
    mine[step[1]] += 1
    if step[1] and theirs[25 - step[1]]:
        theirs[25] += theirs[25 - step[1]]
        theirs[25 - step[1]] = 0
    return mine, theirs


def most_steps(mine, theirs, dice, known):
    """How many of these dice can be played."""
    key = (tuple(mine), tuple(theirs), dice)
    if key not in known:
        known[key] = max((1 + most_steps(*after_step(mine, theirs, step), dice[:at] + dice[at + 1:], known)
                          for at, pips in enumerate(dice) if pips not in dice[:at]
                          for step in steps_by(mine, theirs, pips)), default=0)
    return known[key]


def turn_by_chance(state, chance):
    """The steps of a legal turn: each keeps as many dice playable as can be, and a single one is the larger."""
    mine, theirs = (state["x"], state["o"]) if state["you"] == "X" else (state["o"], state["x"])
    one, two = state["dice"]
    dice, known, steps = (one,) * 4 if one == two else (one, two), {}, []
    while True:
        most = most_steps(mine, theirs, dice, known)
        if not most:
            return steps
        good = [(pips, step) for at, pips in enumerate(dice) if pips not in dice[:at] for step in steps_by(mine, theirs, pips)
                if 1 + most_steps(*after_step(mine, theirs, step), dice[:at] + dice[at + 1:], known) == most]
        if most == 1 and not steps:
            good = [(pips, step) for pips, step in good if pips == max(pips for pips, _ in good)]
        pips, step = chance.choice(good)
        mine, theirs = after_step(mine, theirs, step)
        rest = list(dice)
        rest.remove(pips)
        dice = tuple(rest)
        steps.append(step)
        if mine[0] == 15:
            return steps


class Player(threading.Thread):
    """One who plays by chance. He sends what he has chosen again, until it is answered, also after the server was away.
    `told` has each entry that he was told, by its number; `conflicts` counts those that he was told otherwise before, and the
    states that lack one of them."""

    def __init__(self, port, secret, seed, pause=0.0):
        super().__init__(daemon=True)
        self.port, self.secret, self.pause = port, secret, pause
        self.chance = random.Random(seed)
        self.told, self.conflicts, self.sent, self.away, self.open, self.fault = {}, 0, 0, 0, None, None
        self.over = False

    def run(self):
        try:
            while not self.over:
                try:
                    self.play(Socket(self.port, "/play/live", timeout=30))
                except (Closed, OSError):
                    self.away += 1
                    time.sleep(0.1)
        except Exception as fault:
            self.fault = fault

    def play(self, link):
        link.send("hello " + self.secret)
        is_begun = False
        while not self.over:
            message = link.message()
            if "number" in message:
                self.hear(message)
                if self.open and message["number"] >= self.open[0]:
                    self.open = None
                self.choose(message)
                if self.open and (self.open[2] is False or not is_begun):
                    self.send(link)
                is_begun = True
            elif message.get("re") and message.get("no"):
                self.open = None
                if message["no"] != "another entry" and not message["no"].startswith("not saved"):
                    raise ValueError(message)
            elif message.get("no"):
                raise ValueError(message)

    def send(self, link):
        number, words, _ = self.open
        self.open = (number, words, True)
        self.sent += 1
        link.send(f"act {number} {words}")

    def hear(self, state):
        first = state["number"] - len(state["last"]) + 1
        self.conflicts += bool(self.told) and state["number"] < max(self.told)
        for number, line in enumerate(state["last"], first):
            self.conflicts += self.told.setdefault(number, line) != line
        self.over = state["winner"] != ""

    def choose(self, state):
        may = state.get("may", [])
        if self.open or not may:
            return
        if self.pause:
            time.sleep(self.pause)
        if "move" in may:
            words = words_of(turn_by_chance(state, self.chance))
        elif "roll" in may:
            words = "double" if "double" in may and self.chance.random() < 0.1 else "roll"
        elif "take" in may:
            words = self.chance.choice(["take", "take", "drop"])
        else:
            words = self.chance.choice(["accept", "reject"])
        self.open = (state["number"] + 1, words, False)
