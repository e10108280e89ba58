"""A match at two terminals: its referee, two watchers and both players, from the making of it to what is wrong with it."""
import os
import select
import subprocess
import time

from people import MOST_SECONDS, PLAYED, STILL, STYLES, Person
from ports import free_ports
from program import PROGRAM
from terminals.goings import go_away, sees
from terminals.kept import TITLE, Kept
from terminals.kinds import CHOICES, GOINGS, LONG, PARTS, REFUSED

PORT = free_ports(5200, 16)
LONGEST_MATCH = 3600


class Table:
    """A match of a kind, in a folder. `goings` says who is still to go away; `kept` looks at what a watcher keeps."""

    def __init__(self, kind, top):
        self.kind, self.top = kind, top
        self.make()
        self.referee = subprocess.Popen([PROGRAM, "referee", "--quiet", "--dir", f"{top}/table"])
        # The opening is there before the players come.
        while not os.path.exists(f"{top}/table/party-0.1") and self.referee.poll() is None:
            time.sleep(0.01)
        watch = [PROGRAM, "watch", "--quiet", "--match", f"{top}/table/match-watch"]
        kept = ["--board", f"{top}/board", "--page", f"{top}/page", "--title", TITLE, "--numbering", "X"]
        self.watchers = []
        for number, words in enumerate(([], kept)):
            with open(f"{top}/w{number}", "wb") as out:
                self.watchers.append(subprocess.Popen([*watch, *words], stdout=out))
        self.people = [sit_down(top, "X", 80, kind), sit_down(top, "O", 60, kind)]
        self.goings = dict(GOINGS) if kind.length == LONG else {}
        self.kept = Kept(top)

    def make(self):
        """Makes the match, whose dice go by its secret."""
        kind, top = self.kind, self.top
        names = ["--name-x", "Anna", "--name-o", "Otto"] if kind.length == LONG else []
        folder = f"{top}/new" if kind.begun else f"{top}/table"
        new = [PROGRAM, "new", "--length", kind.length, "--port", str(PORT), "--dir", folder, *names]
        subprocess.run(new, check=True, stdout=subprocess.DEVNULL)
        if kind.begun:
            os.mkdir(f"{top}/empty")
            recover = [PROGRAM, "recover", "--match", f"{folder}/match-x", "--keys", folder, "--x", f"{top}/empty", "--o",
                       f"{top}/none", "--dir", f"{top}/table", kind.begun]
            os.mkdir(f"{top}/none")
            subprocess.run(recover, check=True, capture_output=True)
        with open(f"{top}/table/secret", "wb") as file:
            file.write(kind.secret)

    def other(self, person):
        return next(other for other in self.people if other is not person)

    def play(self):
        """Lets both play until they have ended, or for so long at most."""
        for person in self.people:
            # Nobody acts before both have sat down, so both see each entry.
            sees(person, r"^(?:your turn, |it is [XO]'s turn)")
        begun = time.time()
        while any(person.status is None for person in self.people) and time.time() - begun < LONGEST_MATCH:
            playing = [person.terminal for person in self.people if person.status is None]
            ready, _, _ = select.select(playing, [], [], STILL / 2)
            for person in self.people:
                if person.terminal in ready:
                    person.read()
                elif person.status is None:
                    self.let_act(person)
            self.kept.look()

    def let_act(self, person):
        """Lets a player do what he is to do now, and go away where he is to."""
        go_away(self, person)
        person.act()
        if self.goings.get((person.player, len(person.typed_turns))) == "killed behind a turn":
            go_away(self, person)

    def left(self):
        """What nobody did that was to be done."""
        wrong = [f"{player} never went: {how}" for (player, _), how in self.goings.items()]
        wrong += [f"{person.player} never did {left}" for person in self.people for left in left_of(person, self.kind)]
        return wrong

    def check(self):
        """How the processes ended, whether the watchers have one good transcript, and the last board that was kept."""
        wrong = []
        for person in self.people:
            if person.status != 0:
                wrong.append(f"{person.player} ended with {person.status}: {person.screen[-500:]}")
                if person.status is None:
                    os.kill(person.pid, 9)
            wrong += person.wrong
        for process in (self.referee, *self.watchers):
            wrong += check_ended(process)
        return wrong + check_transcripts(self.top)


def sit_down(top, player, columns, kind):
    """A player who sits down at a terminal of so many columns. X leaves it to the key file who plays."""
    is_long = kind.length == LONG
    said = [] if player == "X" else ["--player", player.lower()]
    said += ["--forced"] if player == "X" and is_long else []
    words = [PROGRAM, "play", *said, "--match", f"{top}/table/match-{player.lower()}"]
    choices, parts = (CHOICES[player], PARTS) if is_long else ([], {})
    refused = {} if kind.begun else {prompt: list(lines) for prompt, lines in REFUSED.items()}
    exports = player == "X" or not is_long
    # So few lines that some list of turns has more.
    lines = 18 if exports else 24
    return Person([*words, "--dir", f"{top}/{player}"], player, columns, lines, refused, list(choices), kind.has_colours,
                  exports, kind.tries[player], parts, kind.among)


def left_of(person, kind):
    """What a player was to type or to see, and never did."""
    left = [line for lines in person.lines.values() for line, _ in lines]
    left += [line for _, _, line in person.choices] + [attempt.__name__ for attempt in person.tries]
    if kind.length != LONG:
        return left
    left += [] if person.has_undone else ["undo"]
    left += [line for lines in person.parts.values() for line, _ in lines]
    if person.player == "X":
        left += [] if person.pages else ["more"]
        left += [] if PLAYED in person.screen else ["--forced"]
    return left


def left_by_all(people, kind):
    """In which ways nobody typed a turn; half of a double stands in the screens that are compared."""
    wanted = [style for style in STYLES if style != "half"] if kind.length == LONG else []
    return [style for style in wanted if not any(person.uses[style] for person in people)]


def check_ended(process):
    """Whether the referee or a watcher ends, and well."""
    try:
        return [f"{process.args[1]} ended with {process.returncode}"] if process.wait(timeout=MOST_SECONDS) != 0 else []
    except subprocess.TimeoutExpired:
        process.kill()
        return [f"{process.args[1]} did not end"]


def check_transcripts(top):
    """The transcripts of both watchers are one, and good, and its last board is the one that was kept."""
    wrong, texts = [], []
    for number in (0, 1):
        with open(f"{top}/w{number}", "rb") as file:
            texts.append(file.read())
    judged = subprocess.run([PROGRAM, "judge"], input=texts[0], capture_output=True, check=False)
    if texts[0] != texts[1] or judged.returncode != 0:
        wrong.append("the watchers' transcripts are not the same good one")
    with open(f"{top}/board", encoding="ascii") as file:
        if not judged.stdout.decode().rsplit("ok ", 1)[0].endswith(file.read()):
            wrong.append("the board that was kept is not the last one")
    return wrong
