"""People at pseudo terminals, for the check that plays matches: each types what a person would, as his screen asks."""
import fcntl
import itertools
import os
import pty
import re
import select
import signal
import struct
import termios
import time

from refused_lines import Seen, turns_to_list

# A person types when the screen has stood still for so long.
STILL = 0.03
# A person waits so long for what is to come, and so long for the answer to what he types.
MOST_SECONDS = 300
PATIENCE = 300
# So many faults of what he sees are told, at most.
MOST_TOLD = 12
PROMPT = re.compile(r"^your turn, [XO]:\s((?:.|\n)*)", re.M)
# What the legal turns are answered with, and one of them there.
LISTED = r"turns:|the only turn|can't move"
TURN = re.compile(r"(?<= )(?:[\w]+-\w+\*?)(?: [\w]+-\w+\*?)*")
# What stands below an answer: what may be done now, to its last word.
PROMPTED = r"(?:.|\n)*^your turn, [XO]:\s(?:.|\n)*?(?:backgammon|drop|reject)\n"
# What a busy machine may add to a screen: that the referee is not heard, or is again, each time with what may be done
# now; that a choice waits for it; and how the other player stands.
SAID_ANEW = r"(?:your turn, [XO]:\s(?:.|\n)*?(?:backgammon|drop|reject)\n|it is .* turn\n)?"
WORDS = re.compile(r"no word from the referee for three\s+seconds[^`]*?heard\s+again\n" + SAID_ANEW
                   + r"|the referee is heard again\n" + SAID_ANEW
                   + r"|your choice is kept, and sent when the referee is heard\s+again\n"
                   + r"|[XO] is (?:not here yet|here now|away:[^`]*?waits|back)\n[^\n]*\n")
# What bold and coloured letters begin and end with.
LOOKS = re.compile(r"\x1b\[\d*m")
CTRL_D = b"\x04"
# What is said where a turn is played at once, where there is no memory, with what to do, to who leaves, and below the
# first lines of the legal turns.
PLAYED = "the only turn is played: "
NO_MEMORY = "out of memory"
MORE_MEMORY = "end other programs, or allow this one more (`ulimit -v`)"
LEFT = "you left the table: the match goes on by the same command"
# What each line that acts is answered with: the entry that it made.
MADE = {"r": "roll", "d": "double", "double": "double", "t": "take", "p": "drop", "a": "accept", "n": "reject"}
# What stands above the prompt of each answer to an offer.
ANSWERED = {"take": r"^take: you own the cube at \d+\ndrop: [XO] wins\s",
            "accept": r"^accept: you win\s(?:.|\n)*^reject: the game goes on\n"}
MORE = "`more` lists further turns"


class Person:
    """One who plays at a terminal. `lines` says of a prompt which lines he tries first, each with what is to answer it,
    `tries` what he types once where the board lets it be refused, and `parts` what he types once where a part of a turn
    is typed, by the number of its dice. He plays one of the first turns that are listed, out of so many as `among` says.
    What came is kept in `raw`, and what he reads, without colours, in `screen`; `lives` says where in it each call of the
    command begins, and with how many columns. Where `exports` is not set, an option says how many there are, and no
    variable, and none says how many lines."""

    def __init__(self, command, player, columns, rows, lines, choices, has_colours=False, exports=True, tries=(), parts=(),
                 among=1):
        self.command, self.player, self.size, self.lines, self.choices = command, player, (columns, rows), lines, choices
        self.no_color, self.exports, self.tries = "" if has_colours else "1", exports, list(tries)
        self.parts, self.among = {dice: list(lines) for dice, lines in dict(parts).items()}, among
        self.raw, self.screen, self.seen, self.changed, self.wrong = "", "", 0, time.time(), []
        self.awaited, self.typed_turns, self.later, self.prompt = None, [], {}, ""
        self.lives, self.has_undone, self.pages, self.listed, self.typed_at = [], False, 0, "", 0
        self.behind, self.uses, self.acts = None, dict.fromkeys(STYLES, 0), False
        self.variables = {}
        self.start()

    def start(self):
        columns = str(self.size[0])
        command = self.command if self.exports else [*self.command, "--columns", columns]
        pid, self.terminal = pty.fork()
        if pid == 0:
            for name in ("COLUMNS", "LINES"):
                os.environ.pop(name, None)
            if self.exports:
                os.environ.update(COLUMNS=columns, LINES=str(self.size[1]))
            os.environ.update(TERM="xterm", NO_COLOR=self.no_color, **self.variables)
            os.execv(command[0], command)
        self.pid, self.status = pid, None
        self.seen, self.awaited, self.later, self.acts = len(self.screen), None, {}, False
        self.lives.append((self.seen, self.size[0]))
        fcntl.ioctl(self.terminal, termios.TIOCSWINSZ, struct.pack("HHHH", self.size[1], self.size[0], 0, 0))

    def kill(self):
        """His terminal is killed."""
        os.kill(self.pid, signal.SIGKILL)
        os.waitpid(self.pid, 0)
        os.close(self.terminal)

    def leave(self, typed):
        """He leaves by what he types, and begins the same command again."""
        self.type(typed)
        self.end(f"by {typed!r}", 0, LEFT)
        self.start()

    def be_refused(self, variables):
        """He leaves, and begins the same command with variables by which it gets no memory: it says so, and ends. He begins it
        once more without."""
        self.variables = variables
        self.leave("quit")
        self.variables = {}
        self.end("without memory", 1, MORE_MEMORY)
        self.start()

    def end(self, how, status, wanted):
        """Waits until his process has ended: with this status, and these words among the last on his screen."""
        until = time.time() + MOST_SECONDS
        while self.status is None and time.time() < until:
            if select.select([self.terminal], [], [], 0.1)[0]:
                self.read()
        if self.status is None:
            self.wrong.append(f"{self.player} did not leave {how}: {self.screen[-300:]!r}")
            return self.kill()
        os.close(self.terminal)
        left = " ".join(word for line in self.screen[self.seen:].split("\n")[-3:] for word in line.split())
        if self.status != status or wanted not in left:
            self.wrong.append(f"{self.player} left {how} with status {self.status}, and saw {left}")

    def is_asked(self):
        """Whether the last thing on his screen is a prompt that he has not answered."""
        return self.awaited is None and self.screen.endswith("\n") and bool(PROMPT.search(self.new()))

    def may_roll(self):
        """Whether a roll is the first thing that his last prompt offers."""
        return PROMPT.findall(self.new())[-1].startswith("roll")

    def new(self):
        """What came since he typed last, or behind a turn that was played for him."""
        return self.screen[self.seen:].split(PLAYED)[-1]

    def read(self):
        """Reads what has come; what was announced may have been read already."""
        if not select.select([self.terminal], [], [], 0)[0]:
            return
        self.changed = time.time()
        try:
            # What comes may begin between the two bytes of an end of a line.
            self.raw = (self.raw + os.read(self.terminal, 65536).decode()).replace("\r\n", "\n")
            self.screen = LOOKS.sub("", self.raw)
        except OSError:
            _, status = os.waitpid(self.pid, 0)
            self.status = os.waitstatus_to_exitcode(status)

    def type(self, line, awaited=None):
        """Types a line, or ctrl-D; the screen is to answer with what is awaited, a pattern."""
        self.seen, self.awaited = len(self.screen), (line, awaited) if awaited else None
        self.typed_at = time.time()
        os.write(self.terminal, CTRL_D if line == "ctrl-D" else f"{line}\n".encode())

    def do(self, line, entry):
        """Types a line that acts; the screen is to show the entry that it makes."""
        self.acts = True
        self.type(line, rf"^{self.player} {entry}\b")

    def act(self):
        """Types what the screen asks for behind what was typed last, where it stands still."""
        if time.time() - self.changed < STILL or not self.screen.endswith("\n"):
            return
        new = self.new()
        if PROMPT.search(new):
            self.prompt = " ".join(PROMPT.findall(new)[-1].split())
        if self.awaited:
            self.compare(self.screen[self.seen:])
        elif PROMPT.search(new):
            self.go_on()

    def has_all(self, line, pattern, new):
        """Whether the whole answer to a line has come, which may be in parts: a list has as many turns as it says."""
        if not re.search(pattern, new, re.M):
            return False
        if line not in ("l", "legal", "more") or MORE in " ".join(new.split()):
            return True
        said = re.search(r"(\d+) turns:", self.listed + new)
        return said is None or len(turns_in(self.listed + new)) >= int(said[1])

    def compare(self, new):
        """Compares what the screen answers with what was to come, and goes on."""
        line, pattern = self.awaited
        if line == "l" and PLAYED in new:
            # A turn was played for him meanwhile.
            self.awaited = None
            return
        if line != "more":
            self.listed = ""
        has_all = self.has_all(line, pattern, new)
        if not has_all and time.time() - self.typed_at < PATIENCE:
            return
        self.awaited = None
        if not has_all:
            self.wrong.append(f"{self.player} typed {line!r} and saw {new!r}, and not {pattern!r}")
            if line == "l":
                return self.type("l", LISTED)
        if self.acts:
            # What is to be done next stands below the entry, or comes later.
            self.acts = False
            return
        if line in ("l", "legal") and re.search(LISTED, new):
            self.check_listed(new)
        if line == "l" and MORE in " ".join(new.split()):
            self.listed = new
            self.type("more", r"\n \S+-\S+")
        elif line == "l":
            self.choose(new)
        elif line == "more":
            self.pages += 1
            self.choose(self.listed)
        elif self.behind:
            self.do(self.behind, "resign gammon")
            self.behind = None
        elif self.later:
            self.go_on_with_part(line)
        else:
            self.go_on()

    def go_on_with_part(self, line):
        """Takes the part of a turn that he typed back, once; types what is refused there, or the rest."""
        first, rest = next(iter(self.later.items()))
        tries = self.parts.get(len(self.typed_turns[-1].split()), [])
        if line == "undo":
            self.type(first, rf"so\s+far {first.replace('/', '-')}")
        elif line == first and not self.has_undone:
            self.has_undone = True
            self.type("undo", rf"taken\s+back{PROMPTED}")
        elif tries:
            typed, pattern = tries.pop(0)
            self.type(typed, pattern.replace("PART", first.replace("/", "-")))
        else:
            self.later = {}
            self.do(rest, f"move {self.typed_turns[-1]}$")

    def check_listed(self, new):
        """Compares the turns that he sees listed, or the first of them, with those that are legal by what he sees."""
        wanted, turns = turns_to_list(self.player, self.screen), turns_in(new)
        if len(wanted) == 1:
            found = " ".join(new.split())
            is_told = f"the only turn: {wanted[0]} (`m`" in found if wanted[0] else "can't move" in found
        else:
            is_told = f"{len(wanted)} turns:" in new and turns == wanted[:len(turns)]
        if not is_told and len(self.wrong) < MOST_TOLD:
            self.wrong.append(f"{self.player} sees the turns {new!r}, and not {wanted}")
        pips, told = Seen(self.player, self.screen).pips(), re.findall(r"^pips: .*$", self.screen, re.M)[-1]
        if list(map(int, re.findall(r"\d+", told))) != pips and len(self.wrong) < MOST_TOLD:
            self.wrong.append(f"{self.player} sees `{told}`, where by the board it is {pips}")

    def go_on(self):
        """Types the next line that he wants to try at this prompt, or what it asks for."""
        kind = re.match(r"\w+", self.prompt)[0]
        if kind in ANSWERED and not re.search(ANSWERED[kind] + PROMPTED, self.screen[self.screen.rfind("\nlast: "):], re.M):
            self.wrong.append(f"{self.player} is not told what the answers bring: {self.screen[-300:]!r}")
        if self.lines.get(kind):
            return self.type(*self.lines[kind].pop(0))
        for attempt in self.tries:
            found = attempt(self.player, kind, self.screen)
            if found:
                self.tries.remove(attempt)
                return self.type(*found)
        for choice in self.choices:
            word, offered, line = choice
            if word == kind and offered in self.prompt:
                self.choices.remove(choice)
                if line == "resign":
                    # Its level is asked for.
                    self.behind = "Gammon" if self.player == "X" else "G"
                    return self.type(line, r"at\s+which\s+level")
                return self.do(line, MADE[line])
        answers = {"roll": "r", "take": "t", "accept": "a"}
        return self.do(answers[kind], MADE[answers[kind]]) if kind in answers else self.type("l", LISTED)

    def choose(self, listed):
        """Types one of the first turns that are listed, in the way of those that fit it which he has used least."""
        if "can't move" in listed:
            return self.do("move", "move")
        if "the only turn" in listed:
            return self.do("m", "move")
        turns = turns_in(listed)[:self.among]
        pips = int(re.findall(rf"^pips: {self.player} \(you\) (\d+)", self.screen, re.M)[-1])
        steps = turns[pips % len(turns)].split(" ")
        fitting = [style for style in STYLES if STYLES[style](steps)]
        style = "in parts" if self.parts.get(len(steps)) else min(fitting, key=self.uses.get)
        self.uses[style] += 1
        lines = STYLES[style](steps)
        self.typed_turns.append(" ".join(steps).replace("*", ""))
        if len(lines) > 1:
            self.later[lines[0]] = lines[1]
            return self.type(lines[0], r"so\s+far " + lines[0].replace("/", "-"))
        return self.do(lines[0], f"move {self.typed_turns[-1]}$")


def turns_in(listed):
    """The turns of a list."""
    return TURN.findall(listed.split("turns:\n", 1)[-1].replace("\n", "  "))


def slashed(steps, marks=""):
    """Steps as players write them, without the marks of hits, or with these."""
    return [step.replace("-", "/").replace("*", marks) for step in steps]


def is_chain(steps):
    """Whether one checker plays all steps."""
    return len(steps) > 1 and all(one.rstrip("*").split("-")[1] == other.split("-")[0] for one, other in zip(steps, steps[1:]))


def path(steps):
    """One movement with each point that the checker comes by."""
    if is_chain(steps):
        return ["/".join([steps[0].split("-")[0], *(step.split("-")[1] for step in steps)])]
    return None


def merged(steps):
    """One movement for two steps of one checker, where the first hits nothing and the second does not bear off: one die
    might do that alone."""
    if is_chain(steps) and len(steps) == 2 and "*" not in steps[0] and "off" not in steps[1]:
        return [f"{steps[0].split('-')[0]}/{steps[1].split('-')[1]}".replace("*", "")]
    return None


def counted(steps):
    """One movement for steps that are the same."""
    groups = [(step, len(list(same))) for step, same in itertools.groupby(slashed(steps))]
    if len(groups) == len(steps):
        return None
    return [" ".join(f"{step}({count})" if count > 1 else step for step, count in groups)]


def half(steps):
    """Half of a double by one checker that hits nothing, and then the rest."""
    if len(steps) == 4 and is_chain(steps[:2]) and "*" not in steps[0] + steps[1]:
        return [f"{steps[0].split('-')[0]}/{steps[1].split('-')[1]}", " ".join(slashed(steps[2:]))]
    return None


# Ways to type a turn, the rarest first; nothing where one does not fit it.
STYLES = {
    "half": half,
    "counted": counted,
    "merged": merged,
    "path": path,
    "marked hits": lambda steps: [" ".join(slashed(steps, "*"))] if "*" in "".join(steps) else None,
    "b": lambda steps: [" ".join(slashed(steps)).replace("bar", "b")] if steps[0].startswith("bar") else None,
    "o": lambda steps: [" ".join(slashed(steps)).replace("off", "o")] if steps[-1].endswith("off") else None,
    "in parts": lambda steps: [slashed(steps)[0], " ".join(slashed(steps[1:]))] if len(steps) > 1 else None,
    "commas": lambda steps: [", ".join(slashed(steps))] if len(steps) > 1 else None,
    "slashes": lambda steps: [" ".join(slashed(steps))],
    "as printed": lambda steps: ["move " + " ".join(steps).replace("*", "")],
    "capitals": lambda steps: ["M " + " ".join(slashed(steps)).upper()],
    "blanks": lambda steps: ["  m   " + "   ".join(slashed(steps))],
}
