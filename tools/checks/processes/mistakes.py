"""What is said of a folder with saves that are not the party's own, or that are damaged."""
import math
import os
import shutil
import time

from counting import right
from parties import Match, comes, hosts
from processes.rights import check_rights, check_unwritable
from processes.running import check, make, run


def make_mistakes(top):
    """Folders with saves of the other player, of another match, or damaged, and a key file of a longer match; what seats
    have is that of `check_act`."""
    shutil.copytree(f"{top}/x", f"{top}/mistakes/renamed")
    for slot in (0, 1):
        shutil.copy(f"{top}/o/party-2.{slot}", f"{top}/mistakes/renamed/party-1.{slot}")
    longer = f"{top}/mistakes/longer"
    with open(f"{top}/table/match-x", encoding="ascii") as file, open(longer, "w", encoding="ascii") as changed:
        changed.write(file.read().replace(" length 1 ", " length 5 "))
    shutil.copytree(f"{top}/mistakes/table", f"{top}/mistakes/referee")
    shutil.copy(f"{top}/table/party-0.0", f"{top}/mistakes/referee/party-0.0")
    os.mkdir(f"{top}/mistakes/damaged", 0o700)
    for slot in (0, 1):
        with open(f"{top}/mistakes/damaged/party-1.{slot}", "wb") as file:
            file.write(b"rubbish")


def least_time(*words):
    """How long a command takes: the least of some times, as the machine may stand still in one."""
    least = math.inf
    for _ in range(5):
        if least >= 3:
            begun = time.monotonic()
            run(*words)
            least = min(least, time.monotonic() - begun)
    return least


def check_mistakes(room):
    """What is said, and at once, of a folder with saves that are not the party's own, and of one that takes none."""
    top = room.top
    table, other = Match(f"{top}/table"), make(f"{top}/mistakes/table", room.port + 20)
    ours, theirs = (f"match {match.number}, length 1, rules {match.rules}" for match in (table, other))
    fault, port = "\nrestore fault: wrong match\n", f"{room.port + 20} "
    right(comes(lambda: not hosts(room.port + 20)), f"port {port}is taken")
    make_mistakes(top)
    damaged, longer = f"{top}/mistakes/damaged", f"{top}/mistakes/longer"
    files = {"own": f"{top}/table/match-x", "other": f"{top}/mistakes/table/match-x", "longer": longer}
    is_of, other_folder = "; the match file is of ", f": give another --dir{fault}"
    five = ours.replace("length 1", "length 5")
    of_other = f"{is_of}{theirs}: give another --dir, or the key file of match {table.number}{fault}"
    rows = (("x", "other", 1, f"/x has saves of player X of {ours}{of_other}"),
            ("x", "longer", 1, f"/x has saves of player X of {ours}{is_of}{five}{other_folder}"),
            ("o", "own", 2, "/o has saves of player O, and none of player X: give another --dir, "),
            ("mistakes/renamed", "own", 1, f"/renamed has saves of player O of {ours}{is_of}{ours}{other_folder}"),
            ("mistakes/damaged", "own", 1, f"the saves of player X in {damaged} are damaged: "
                                           f"`bg_relay show {damaged}` says how\nrestore fault: damaged\n"))
    for folder, key, status, told in rows:
        for command in (["play"], ["act", "--seconds", "20"], ["auto"]):
            words = [*command, "--player", "X", "--match", files[key], "--dir", f"{top}/{folder}"]
            check(f"{command[0]} over {folder} by the {key} key file", status, "", told, *words)
            took = least_time(*words)
            right(took < 3, f"{command[0]} over {folder} took {took:.1f} seconds")
    told = (f"/referee has saves of the referee of {ours}{is_of}{theirs}: put the saves of this match in their place, "
            f"or all files of match {table.number}{fault}")
    check("a referee over saves of another match", 1, "", told, "referee", "--dir", f"{top}/mistakes/referee")
    check_unwritable(room.port + 20)
    check_rights(room.port + 20)
