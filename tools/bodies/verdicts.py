"""What a check of a crate with wrong bodies in it says of each of its functions."""
import re

REFUSED, ACCEPTED, NOT_JUDGED, BROKEN = "refused", "accepted", "not judged", "broken"
# What a proof file misses where a wrong body took a name away, or where what it cites is not proved.
MISSES = re.compile(r"has no |is not in scope|was not admitted")


def folded(path):
    """Returns the function that a symbol below its crate stands for: of a closure the one that it is written in, and of
    a cycle of calls its own."""
    parts = [part.removeprefix("+") for part in path.split("::")]
    if "fn" in parts[:-1]:
        at = parts.index("fn")
        return "::".join([*parts[:at], parts[at + 1]])
    return "::".join(parts)


class Said:
    """What the lines of a check say: of each function its open goals, and whether it was judged."""

    def __init__(self, crate, status, text):
        self.crate, self.status, self.text = crate, status, text
        self.last = (text.strip().splitlines() or ["it said nothing"])[-1]
        self.functions, self.goals, self.unsure, self.misses = set(), {}, set(), set()
        self.read_functions()
        self.read_answers()

    def read_functions(self):
        """Reads the line of each function, and the notes above it, which name its open goals."""
        noted = []
        for line in self.text.splitlines():
            noted += re.findall(r"^note: src/\S+: it is not proved that .*?\(`([^`]+)`\)", line)
            found = re.match(rf"fn {self.crate}::(\S+): (.*)", line)
            if not found:
                continue
            function, verdict = folded(found[1]), found[2]
            self.functions.add(function)
            if verdict.startswith("could not tell"):
                self.unsure.add(function)
            # what only calls a function that is not proved has no open goal of its own
            _, is_own, names = re.sub(r";? it calls .*", "", verdict).partition("did not prove ")
            if is_own or noted and not verdict.startswith("proved"):
                goals = noted or re.findall(r"`([^`]+)`", names)
                self.goals.setdefault(function, []).extend(goals or ["a goal"])
            noted = []

    def read_answers(self):
        """Reads which answers that are written by hand hold no longer."""
        errors = r"^(?:\./)?proofs/(\S+)/[\w-]+\.antt:\d+:\d+: error: (?:`([^`]*)`: )?(.*)"
        for folder, goal, words in re.findall(errors, self.text, re.M):
            function = folded(folder.replace("/", "::"))
            if function not in self.functions:
                continue
            if MISSES.search(words):
                self.misses.add(function)
            else:
                self.goals.setdefault(function, []).append(f"the answer to {goal}" if goal else "an answer")

    def is_whole(self):
        """Returns whether the check ran to its end, so that each function that it names was judged."""
        return re.match(r"(only|logic)=", self.last) is not None

    def is_proved(self):
        return self.status == 0 and self.last.startswith("logic=proved")

    def why_not_whole(self):
        if self.status < 0:
            return f"its check was ended by signal {-self.status}, most likely for memory"
        return f"its check ended with status {self.status}: {self.last[:120]}"


def at(function, goals):
    """Returns in a few words where a wrong body is refused."""
    shown = list(dict.fromkeys(goals))
    return f"{function} at {', '.join(shown[:2])}" + (f" and {len(shown) - 2} more" if shown[2:] else "")


def of_functions(said, functions):
    """Returns the verdict on a wrong body by the functions that it changes, or none where these have no open goal."""
    refused = [it for it in sorted(functions) if it in said.goals]
    if refused:
        return REFUSED, at(refused[0], said.goals[refused[0]])
    return None


def of_crate(said):
    """Returns the verdict on a wrong body that alone was put into the crate."""
    if said.is_proved():
        return ACCEPTED, "the crate is proved with it"
    refused = of_functions(said, said.goals)
    if refused or not said.is_whole():
        return refused if said.is_whole() else (NOT_JUDGED, said.why_not_whole())
    if said.unsure:
        return NOT_JUDGED, f"the check met a limit of its own at {min(said.unsure)}"
    if said.misses:
        return NOT_JUDGED, f"only the proof of {min(said.misses)} misses a name"
    return NOT_JUDGED, f"no goal is open: {said.last[:80]}"
