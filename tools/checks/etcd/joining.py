"""Which folders may be copies of what a cluster has."""
import os
import shutil
import subprocess

from counting import right
from etcd.servers import Sharing, same_lines
from program import PROGRAM
from served import Served
from serving.asking import lines_of


def refused(words, status, *said):
    """A command ends with this status, and says one line with these words."""
    done = subprocess.run([PROGRAM, *words], capture_output=True, timeout=60, check=False, text=True)
    lines = done.stderr.splitlines()
    is_right = done.returncode == status and len(lines) == 1 and all(word in lines[0] for word in said)
    right(is_right, f"{words[0]} ended with {done.returncode}, and said {lines}, and not {said}")


def refuse_folders(fleet, cluster, room):
    """A folder with matches of its own, a copy that is used without the cluster, and a cluster that has nothing."""
    words, port, own = cluster.words, fleet[len(fleet) - 1].port + 1, os.path.join(room, "own")
    os.mkdir(own, 0o700)
    alone = Served(own, port).begin()
    name = alone.make(length=1)["match"]
    alone.kill()
    serve = ["serve", "--dir", own, "--port", str(port)]
    refused([*serve, "--store", words], 2, f"{own} has matches of its own, and {words} has others: name an empty folder")
    refused([*serve, "--store", "etcd:nowhere"], 2, "names no members of a cluster")
    refused([*serve, "--store", "etcd:127.0.0.1:1"], 1, "can't be used: no member can be reached")
    server = fleet[len(fleet) - 1]
    fleet.said.append(server.end())
    copy = f"{server.folder} is a copy of what {words} has"
    refused(["serve", "--dir", server.folder, "--port", str(port)], 1, copy)
    refused(["manage", "--dir", server.folder, "--match", "a", "--hide"], 1, copy)
    begin_anew(fleet, cluster, room, own, name, port)


def begin_anew(fleet, cluster, room, own, name, port):
    """A cluster without anything is filled from the first folder, and no copy of another goes with it."""
    fleet.end()
    cluster.end()
    for at in range(cluster.count):
        shutil.rmtree(f"{room}/member{at}")
    cluster.begin()
    words = cluster.words
    folder = fleet[0].folder
    refused(fleet[0].command[1:], 1, f"{words} has nothing more of what {folder} is a copy of: restore it from a snapshot")
    first = Sharing(own, port, words)
    # A match that is too long for the cluster is named, and nothing is begun.
    longer = os.path.join(own, "longer")
    shutil.copytree(os.path.join(own, name), longer)
    with open(os.path.join(longer, "party-0.1"), "wb") as file:
        file.write(bytes(450_001))
    refused(first.command[1:], 2, f"the match longer in {own} has more than the 450000 bytes that {words} takes")
    shutil.rmtree(longer)
    fleet.begin_one(first)
    refused(fleet[0].command[1:], 2, f"{folder} is a copy of another store than {words}")
    empty = os.path.join(room, "empty")
    os.mkdir(empty, 0o700)
    second = Sharing(empty, port + 1, words)
    fleet.begin_one(second)
    right(lines_of(second, name) == lines_of(first, name) != [], "a cluster is not filled from the first folder")
    right(name in os.listdir(empty), "a copy has no folder of a match")
    first.end()
    second.end()
