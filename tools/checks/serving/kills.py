"""Bots that play by sockets while their server is killed again and again, and what is kept of their matches."""
import json
import random
import subprocess
import time

from counting import right
from program import PROGRAM
from serving.archived import compare_archives
from serving.asking import lines_of, players_of, wait_for
from serving.rolled import check_dice


def play_with_kills(server, matches, kills):
    """Bots play so many matches to the end; the server is killed so often meanwhile."""
    made = [server.make(length=1 + index % 3, x=f"x{index} and \u00fc", o=f"o{index}") for index in range(matches)]
    seated = {one["match"]: players_of(server, one, one["match"]) for one in made}
    players = [player for both in seated.values() for player in both]
    # The last player comes behind the kills: his match goes on until then, and his opponent misses the server.
    for player in players[:-1] if kills else players:
        player.start()
    for _ in range(kills):
        time.sleep(random.uniform(0.2, 1))
        server.kill()
        server.begin()
    if kills:
        players[-1].start()
    wait_for(players)
    right(all(player.over for player in players), "a match did not end")
    right(not [player.fault for player in players if player.fault], f"{[player.fault for player in players if player.fault]}")
    right(sum(player.conflicts for player in players) == 0, "an entry was told otherwise later, or not any more")
    right(kills == 0 or sum(player.away for player in players) > 0, "no player has missed the server")
    for name, both in seated.items():
        compare_told(server, name, both)
    search_finished(server, matches)
    compare_archives(server, set(seated))
    check_dice(server, made)


def compare_told(server, name, players):
    """A match has what its players were told, and is judged legal."""
    lines = lines_of(server, name)
    told = [(number, line) for player in players for number, line in player.told.items()]
    right(all(number < len(lines) and lines[number] == line for number, line in told), f"{name} lacks what was told")
    judged = subprocess.run([PROGRAM, "judge"], input="\n".join(lines + [""]).encode(), capture_output=True, check=False)
    right(judged.returncode == 0, f"{name} is not judged legal: {judged.stdout.decode()[-200:]}")


def search_finished(server, matches):
    """All matches are listed as finished, and one is found by its names."""
    for search in ("x%30+a", "X0+AND+%C3%9C"):
        found = json.loads(server.ask("/matches?list=finished&search=" + search)[2])
        right(found["count"] == 1 and found["matches"][0]["names"] == ["x0 and \u00fc", "o0"], f"{search} found {found}")
    listed = json.loads(server.ask("/matches?list=finished")[2])
    right(listed["count"] == matches, f"{listed['count']} matches are finished")
