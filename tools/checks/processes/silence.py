"""What parties say of a referee that does not answer, at a terminal and in a log, and when it is heard again."""
import math
import os
import signal
import time

from counting import right
from parties import Party, comes, hosts
from processes.running import check, end, make, sit_down, start

NO_WORD = "no word from the referee for three seconds: "


def check_silence(room):
    """Each party says in time that its referee does not answer: nobody is there, or another match's referee."""
    top = room.top
    table, port = f"{top}/silence/table", room.port + 20
    match = make(table, port)
    seat = ["--match", f"{table}/match-x", "--dir", f"{top}/silence/x"]
    watch = ["watch", "--match", f"{table}/match-watch"]
    in_logs = [["auto", "--match", f"{table}/match-o", "--dir", f"{top}/silence/o"], [*watch, "--quiet"]]
    away = f"no process has its port {port}, so it is not running: start it"
    other = f"the process at its port {port} doesn't answer: is it the referee of match {match.number}? If not, end it"
    make(f"{top}/silence/other/table", port)
    for referee, why in ((None, away), (f"{top}/silence/other/table", other)):
        process = start("referee", "--quiet", "--dir", referee) if referee else None
        right(comes(lambda: bool(hosts(port)) == bool(referee)), f"port {port} is taken, or is not")
        # Three seconds, and what it takes to begin; the machine may stand still in one of some times.
        took = math.inf
        for _ in range(3):
            if took >= 8:
                took = hear_nothing((["play", *seat], watch, *in_logs), why)
        right(took < 8, f"after {took:.1f} seconds all have said that the referee does not answer")
        check("act without a word", 1, "", f"the time is over, and nothing was heard of the referee: {why}", "act",
              "--seconds", "1", *seat)
        if process:
            end(process)
    check_heard_again(table, in_logs)


def hear_nothing(commands, why):
    """How many seconds go until all parties of these commands say that the referee does not answer, and why."""
    begun = time.monotonic()
    parties = [sit_down(*command) for command in commands]
    for command, party in zip(commands, parties):
        right(comes(lambda: NO_WORD + why in " ".join(party.read().split())),
              f"{' '.join(command)} says of a referee that does not answer: {party.screen[-300:]}")
    took = time.monotonic() - begun
    end(*(party.process for party in parties))
    return took


def check_heard_again(table, commands):
    """What logs of errors alone say of a referee that comes late: that it is silent, and that it is heard, once each."""
    parties = [sit_down(*command) for command in commands]
    for party in parties:
        right(party.sees(NO_WORD), f"a referee that comes late: {party.screen[-300:]}")
    referee = start("referee", "--quiet", "--dir", table)
    for command, party in zip(commands, parties):
        right(party.sees("bg_relay: the referee is heard again\n"), f"{command[0]}, a late referee: {party.screen[-300:]}")
        said = [line for line in party.screen.splitlines() if line.startswith("bg_relay: ")]
        right(len(said) == 2, f"{command[0]} says of a referee that comes late: {said}")
    end(referee, *(party.process for party in parties))


def check_standstill(room):
    """Time in which a player's process stands still is no silence of the referee; time in which it listens is."""
    top = room.top
    match = make(f"{top}/standstill/table", room.port + 40)
    referee = Party(match, 0)
    play = sit_down("play", "--match", f"{top}/standstill/table/match-x", "--dir", f"{top}/standstill/x")
    right(referee.hears() == 1, "the seat of X does not ask")
    told = time.monotonic()
    referee.tell(1)
    time.sleep(0.3)
    os.kill(play.process.pid, signal.SIGSTOP)
    longest, stopped = time.monotonic() - told, time.monotonic()
    time.sleep(5)
    os.kill(play.process.pid, signal.SIGCONT)
    told += time.monotonic() - stopped
    until = time.monotonic() + 2
    while time.monotonic() < until:
        if referee.hears(0.2) == 1:
            longest, told = max(longest, time.monotonic() - told), time.monotonic()
            referee.tell(1)
    # Where the check itself stood still for that long, it answered nothing.
    said = play.read().count("no word from the referee")
    is_late = max(longest, time.monotonic() - told) > 2.5
    right(said == 0 or is_late, f"a player whose process stood still is told: {play.screen[-300:]}")
    right(play.sees("no word from the referee", said + 1), f"a player is not told of a silent referee: {play.screen[-300:]}")
    right(time.monotonic() - told > 2.9, "a player is told of a silent referee too early")
    end(play.process)
    referee.close()


class Minute:
    """Parties whose referee is heard once and then goes away, which logs are told after a minute, and that it is back: begun
    before all other checks, and looked at behind them."""

    def __init__(self, room):
        top, table, self.port = room.top, f"{room.top}/minute/table", room.port + 80
        self.match = make(table, self.port)
        referee = Party(self.match, 0)
        seat = ["--match", f"{table}/match-x", "--dir", f"{top}/minute/x"]
        watch = ["watch", "--match", f"{table}/match-watch"]
        self.parties, begun = {}, time.monotonic()
        for number, command in ((1, ["auto", *seat]), (3, [*watch, "--quiet"]), (4, watch)):
            self.parties[number] = sit_down(*command)
            right(comes(lambda: referee.hears(1) == number), f"party {number} does not ask")
            referee.tell(number)
        # Each may have waited for three seconds where the check was late, and have said so.
        self.is_late = time.monotonic() - begun > 2.5
        referee.close()

    def look(self):
        """Waits for the minute, and for what is said when the referee is back."""
        why = f": no process has its port {self.port}, so it is not running: start it"
        for number, behind in ((1, why), (3, why), (4, "")):
            party = self.parties[number]
            right(comes(lambda: "for a minute" in party.read()),
                  f"a log of party {number} is not told of a minute's silence: {party.screen}")
            said = [line for line in party.screen.splitlines() if line.startswith("bg_relay: no word")]
            said = [line for line in said if not (self.is_late and "for three seconds" in line)]
            right(said == [f"bg_relay: no word from the referee for a minute{behind}"], f"party {number} said {said}")
        referee = Party(self.match, 0)
        for number, party in self.parties.items():
            referee.tell(number)
            right(party.sees("bg_relay: the referee is heard again\n"),
                  f"a log of party {number} is not told that the referee is back: {party.screen}")
        referee.close()
        end(*(party.process for party in self.parties.values()))
