"""Bots whose opponents play through another server, while servers and members are killed and stopped."""
import random
import subprocess
import threading
import time

from counting import right
from etcd.servers import same_lines
from program import PROGRAM
from served import Player
from serving.asking import wait_for

# For so long a server is stopped, which is longer than any of its waits, and longer than another waits for a member.
SECONDS_STOPPED = 8

# So many matches a server makes in a minute at most, and so long a match may take beside many others.
MOST_MADE, SECONDS_OF_A_MATCH = 45, 6


def begin_players(fleet, one, seed):
    """The players of a match, who come to different servers."""
    at, other = random.sample(range(len(fleet)), 2)
    players = [Player(fleet[at].port, one["x"].split("#")[1], seed + "x", 0.02),
               Player(fleet[other].port, one["o"].split("#")[1], seed + "o", 0.02)]
    for player in players:
        player.start()
    return players


def make_all(fleet, matches):
    """So many matches, each server some: it makes 60 a minute, those of other parts of this check among them."""
    made = []
    for index in range(matches):
        if index and index % (MOST_MADE * len(fleet)) == 0:
            time.sleep(61)
        made.append(fleet[index % len(fleet)].make(length=1 + index % 3, x=f"x{index}"))
    return made


def play_with_kills(fleet, cluster, matches, kills):
    """Bots play so many matches to the end, while somebody is killed or stopped so often."""
    made = make_all(fleet, matches)
    for one in made:
        right(fleet.all_have(one["match"], 1), f"{one['match']} is not at all servers")
    began = time.time()
    seated = {one["match"]: begin_players(fleet, one, one["match"]) for one in made}
    players = [player for both in seated.values() for player in both]
    for at in range(kills):
        time.sleep(random.uniform(0.2, 1))
        trouble(fleet, cluster, at)
    right(wait_for(players, max(240, SECONDS_OF_A_MATCH * matches)), f"a match did not end: {[player.fault for player in players if player.fault]}")
    right(all(player.over for player in players), "a match did not end")
    right(not [player.fault for player in players if player.fault], f"{[player.fault for player in players if player.fault]}")
    right(sum(player.conflicts for player in players) == 0, "an entry was told otherwise later, or not any more")
    told = sum(compare_told(fleet, name, both) for name, both in seated.items())
    print(f"{matches} matches, {len(fleet)} servers, {kills} kills and stops: {told} entries told, "
          f"{sum(player.sent for player in players)} actions sent, {sum(player.away for player in players)} times away, "
          f"{time.time() - began:.0f} s")


def trouble(fleet, cluster, at):
    """Kills a server or a member, or stops one."""
    kind = at % 4
    if kind == 0:
        fleet.begin_again(random.choice(fleet.servers))
    elif kind == 1:
        member = random.randrange(cluster.count)
        cluster.kill(member)
        time.sleep(1)
        cluster.begin_member(member)
        cluster.wait()
    elif kind == 2:
        server = random.choice(fleet.servers)
        server.stop()
        threading.Timer(SECONDS_STOPPED, server.go_on).start()
        time.sleep(SECONDS_STOPPED)
    else:
        cluster.stop(random.randrange(cluster.count), 4)
        cluster.wait()


def compare_told(fleet, name, players):
    """All servers have what players were told, and it is judged legal. Gives how many entries that were."""
    lines = same_lines(fleet, name)
    told = [(number, line) for player in players for number, line in player.told.items()]
    missing = [(number, line) for number, line in told if number >= len(lines) or lines[number] != line]
    right(not missing, f"{name} lacks what was told: {missing[:3]}")
    judged = subprocess.run([PROGRAM, "judge"], input="\n".join(lines + [""]).encode(), capture_output=True, check=False)
    right(judged.returncode == 0, f"{name} is not judged legal: {judged.stdout.decode()[-200:]}")
    return len(told)
