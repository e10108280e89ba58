"""Ports and locks of a referee, of seats and of watchers, how often they ask, and what they use while they wait."""
import os
import resource
import shutil
import signal
import time

from counting import right, slowness
from parties import HOST, MOST_SECONDS, Match, Party, comes, hosts
from processes.running import check, end, make, run, start


def check_taken(room):
    """A referee's socket and folder, which no other process can have."""
    top = room.top
    referee = start("referee", "--dir", f"{top}/table")
    right(comes(lambda: hosts(room.port) == {HOST}), f"the referee listens on {hosts(room.port)}")
    check("the folder is taken", 1, "", "another process plays over", "referee", "--dir", f"{top}/table")
    told = f"{top}/table is the folder of the referee: give another --dir"
    check("the folder of a referee that runs, for a seat", 2, "", told, "play", "--match", f"{top}/table/match-x", "--dir",
          f"{top}/table")
    shutil.copytree(f"{top}/table", f"{top}/copy")
    told = (f"port {room.port} is taken: is the referee running already, "
            f"or a match whose ports begin at {room.port - 255} or above?")
    check("the port is taken", 1, "", told, "referee", "--dir", f"{top}/copy")
    end(referee)


def check_seats(room):
    """Each command of a seat, and a watcher, whose referee is the check: their ports, their locks and their pace."""
    top = room.top
    match, told = Match(f"{top}/table"), ["--match", f"{top}/table/match-x"]
    for command in (["auto"], ["act", "--seconds", str(MOST_SECONDS)], ["play"]):
        referee = Party(match, 0)
        folder = f"{top}/seat-{command[0]}"
        seat = start(*command, "--player", "X", *told, "--dir", folder)
        right(referee.hears() == 1, f"the seat of X by {command[0]} does not ask from port {room.port + 1}")
        right(comes(lambda: hosts(room.port + 1) == {HOST}),
              f"the seat of X by {command[0]} listens on {hosts(room.port + 1)}")
        check(f"the folder of {command[0]} is taken", 1, "", "another process plays over", "act", "--player", "O",
              "--match", f"{top}/table/match-o", "--dir", folder, "--seconds", "1")
        end(seat)
        referee.close()
    referee = Party(match, 0)
    watcher = start("watch", "--match", f"{top}/table/match-watch")
    right(referee.hears() == 3, f"who watches first does not ask from port {room.port + 3}")
    pause = referee.least_pause()
    right(pause < 2, f"the watcher asks each {pause:.1f} seconds, which are ten ticks and should be one")
    end(watcher)
    referee.close()


def check_ports_beside(room):
    """Who watches takes no port at which the ports of a match begin that lies beside."""
    top = room.top
    match = make(f"{top}/beside/table", room.port + 20)
    for name, port in (("one", match.port + 3), ("two", match.port + 5)):
        os.mkdir(f"{top}/beside/{name}")
        with open(f"{top}/beside/{name}/match", "w", encoding="ascii") as file:
            file.write(match.line.replace(f"port {match.port}", f"port {port}"))
    referee = Party(match, 0)
    watchers = [start("watch", "--match", f"{top}/beside/table/match-watch") for _ in range(2)]
    asking = set()
    comes(lambda: asking.add(referee.hears(1)) or {4, 6} <= asking)
    right(asking - {None} == {4, 6},
          f"beside matches that begin at the ports of 3 and of 5 watchers have the numbers {asking}")
    end(*watchers)
    referee.close()


def check_sleep(room):
    """Of the ticks that a process slept through it makes up for none: it asks once where it would have asked five times."""
    top = room.top
    referee = Party(Match(f"{top}/table"), 0)
    watcher = start("watch", "--match", f"{top}/table/match-watch")
    right(referee.hears() == 3, "the watcher does not ask")
    os.kill(watcher.pid, signal.SIGSTOP)
    time.sleep(5)
    referee.questions(0)
    begun = time.monotonic()
    os.kill(watcher.pid, signal.SIGCONT)
    asked = referee.questions(0.8)
    # One at once, and one in each second that has passed, which may be some on a busy machine.
    due = 2 + int(time.monotonic() - begun)
    right(asked <= due, f"a process that slept for five seconds asks {asked} times at once, where {due} are due")
    end(watcher)
    referee.close()


def check_waiting(room):
    """What a process uses that waits for ten seconds."""
    top = room.top
    before = resource.getrusage(resource.RUSAGE_CHILDREN)
    run("act", "--player", "O", "--match", f"{top}/table/match-o", "--dir", f"{top}/waiting", "--seconds", "10")
    after = resource.getrusage(resource.RUSAGE_CHILDREN)
    used = after.ru_utime + after.ru_stime - before.ru_utime - before.ru_stime
    print(f"a process that waits uses {used * 10:.2f} % of a processor")
    right(used < 0.1 * slowness(), "a process that waits uses more than 1 % of a processor")
