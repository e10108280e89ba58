"""What one server sees of what others do, and of what it has missed."""
import os
import time

from counting import right
from etcd.servers import NOT_NOW, same_lines
from parties import comes
from serving.asking import bearer, lines_of, state_of
from serving.operators import manage
from web_sockets import Closed, Socket

# For so long it is waited until a server shows what another has saved, which comes at once where the machine is idle.
SECONDS_SEEN = 60
# What a server says to whoever says the secret of a seat, and any other.
SEATED, STRANGER = {"hello": True}, {"no": "there is no such seat"}


def act(server, made, number, words):
    """The answer to an action of the player who is on turn."""
    name = made["match"]
    key = bearer(made[state_of(server, name)["turn"].lower()])
    return server.ask(f"/matches/{name}/actions", f"{number} {words}".encode(), key)[2]


def done(number):
    return b'{"re":%d,"done":true}' % number


def watch(server, name):
    link = Socket(server.port, f"/matches/{name}/live", timeout=SECONDS_SEEN)
    return link


def comes_to(link, number):
    """Whether a watcher is told this entry, by the same socket."""
    try:
        while True:
            message = link.message()
            if message.get("number", 0) >= number:
                return True
    except (Closed, OSError):
        return False


def see_elsewhere(fleet):
    """What is made and played at one server is seen at the others, by sockets that stay."""
    made = fleet[0].make(length=3, x="Ada")
    name = made["match"]
    right(fleet.all_have(name, 1), "a match that one server made is not at all others")
    links = [watch(server, name) for server in fleet.servers]
    right(all(comes_to(link, 1) for link in links), "a watcher is not told the state")
    for number, words in ((2, "resign normal"), (3, "reject"), (4, "resign gammon"), (5, "reject")):
        server = fleet[number % len(fleet)]
        right(fleet.all_have(name, number - 1), f"entry {number - 1} is not at all servers")
        answer = act(server, made, number, words)
        right(answer == done(number), f"entry {number} is answered {answer}")
        right(all(comes_to(link, number) for link in links), f"a watcher of another server is not told entry {number}")
    for link in links:
        link.close()
    right(len(same_lines(fleet, name)) == 6, "servers lack an entry")


def act_while_stale(fleet):
    """A server that was stopped, and has an action from then, does not tell that it is done where another was done first."""
    made = fleet[0].make(length=3)
    name = made["match"]
    right(fleet.all_have(name, 1), "a match is not at all servers")
    seat = state_of(fleet[0], name)["turn"].lower()
    link = Socket(fleet[1].port, "/play/live", timeout=30)
    link.send("hello " + made[seat].split("#")[1])
    right(comes_to(link, 1), "a player is not told the state")
    fleet[1].stop()
    link.send("act 2 resign backgammon")
    for number, words in ((2, "resign normal"), (3, "reject"), (4, "resign gammon")):
        right(act(fleet[0], made, number, words) == done(number), f"entry {number} beside a server that is stopped")
    time.sleep(6)
    before = lines_of(fleet[0], name)
    fleet[1].go_on()
    told = []
    try:
        while not any(message.get("number", 0) >= 4 for message in told):
            told.append(link.message())
    except (Closed, OSError):
        pass
    right(not any(message.get("done") for message in told), f"a stale server has told: {told}")
    lines = {number: line for message in told if "number" in message
             for number, line in enumerate(message["last"], message["number"] - len(message["last"]) + 1)}
    wrong = {number: line for number, line in lines.items() if before[number:number + 1] != [line]}
    right(not wrong, f"a stale server has shown {wrong}")
    right(same_lines(fleet, name) == before, "what a stale server did is in the record")
    right(act(fleet[1], made, 5, "reject") == done(5), "a server that was stale does not go on")
    right(len(same_lines(fleet, name)) == 6, "servers lack an entry")


def change_elsewhere(fleet):
    """What the operator changes at one server, the others have."""
    made = fleet[0].make(length=1, x="Cleo", o="Ben")
    name, copies = made["match"], fleet[1].folder + "-copies"
    right(fleet.all_have(name, 1), "a match is not at all servers")
    right(manage(fleet[1], "--match", name, "--forget-names")[0] == 0, "names are not forgotten")
    right(comes(lambda: b"Cleo" not in fleet[0].ask("/matches")[2]), "another server has names that are forgotten")
    right(manage(fleet[1], "--match", name, "--hide")[0] == 0, "a match is not hidden")
    right(comes(lambda: name.encode() not in fleet[2].ask("/matches")[2]), "another server lists what is hidden")
    right(manage(fleet[2], "--match", name, "--show")[0] == 0, "a match is not shown")
    right(comes(lambda: name.encode() in fleet[0].ask("/matches")[2]), "another server does not list what is shown")
    renew_elsewhere(fleet, made)
    right(manage(fleet[1], "--backup", copies)[0] == 0, "matches are not copied")
    right(manage(fleet[0], "--match", name, "--delete")[0] == 0, "a match is not deleted")
    gone = lambda: all(server.ask(f"/matches/{name}")[0] == 404 for server in fleet.servers)
    right(comes(gone), "another server has what is deleted")
    right(comes(lambda: name not in os.listdir(fleet[2].folder)), "a folder has what is deleted")
    right(manage(fleet[1], "--match", name, "--restore", copies)[0] == 0, "a match is not restored")
    right(fleet.all_have(name, 1), "another server lacks what is restored")
    right(len(same_lines(fleet, name)) == 2, "a restored match is another")


def renew_elsewhere(fleet, made):
    """A new link of a seat is good at all servers, and the old one at none."""
    status, out, _ = manage(fleet[0], "--match", made["match"], "--new-link", "x")
    right(status == 0, "a seat has no new link")
    new, old = out.strip().split("#")[1], made["x"].split("#")[1]
    right(comes(lambda: greeting(fleet[2], new) == SEATED), "a new link is not good at another server")
    right(greeting(fleet[2], old) == STRANGER, "an old link is good at another server")


def greeting(server, secret):
    """What a server says to whoever says this secret: SEATED, STRANGER, or None where it takes nobody in at the moment."""
    link = None
    try:
        link = Socket(server.port, "/play/live", timeout=30)
        link.send("hello " + secret)
        return link.message()
    except (Closed, OSError):
        return None
    finally:
        if link:
            link.close()


def lose_the_cluster(fleet, cluster):
    """While most members are gone nobody is told that anything is done, and whoever comes is told so; later all goes on."""
    right(fleet[0].is_well(), "a server is not well at first")
    made = fleet[0].make(length=3)
    name = made["match"]
    right(fleet.all_have(name, 1), "a match is not at all servers")
    seat = state_of(fleet[0], name)["turn"].lower()
    link = Socket(fleet[0].port, "/play/live", timeout=4)
    link.send("hello " + made[seat].split("#")[1])
    right(comes_to(link, 1), "a player is not told the state")
    for at in range(1, cluster.count):
        cluster.kill(at)
    link.send("act 2 resign normal")
    told = []
    try:
        while True:
            told.append(link.message())
    except (Closed, OSError):
        pass
    right(not any(message.get("done") or message.get("number", 0) > 1 for message in told), f"without a cluster: {told}")
    right(comes(lambda: fleet[0].health() == NOT_NOW, 60), f"without a cluster: {fleet[0].health()}")
    for at in range(1, cluster.count):
        cluster.begin_member(at)
    cluster.wait()
    right(fleet[0].is_well(), "a server is not well when the cluster is back")
    link.sock.settimeout(60)
    right(comes_to(link, 2), "the match does not go on when the cluster is back")
    right(len(same_lines(fleet, name)) == 3, "servers lack what was saved when the cluster came back")


def miss_what_is_compacted(fleet, cluster):
    """A server that was stopped, and can't be told any more what it has missed, reads all matches anew."""
    made, gone = fleet[0].make(length=3), fleet[0].make(length=1)["match"]
    name = made["match"]
    right(fleet.all_have(name, 1) and fleet.all_have(gone, 1), "a match is not at all servers")
    fleet[1].stop()
    for at in range(cluster.count):
        cluster.kill(at)
        cluster.begin_member(at)
    cluster.wait()
    right(fleet[0].is_well() and fleet[2].is_well(), "a server is not well when all members began anew")
    right(act(fleet[0], made, 2, "resign normal") == done(2), "an action after all members began anew")
    right(manage(fleet[0], "--match", gone, "--delete")[0] == 0, "a match is not deleted")
    right(comes(lambda: fleet[2].ask(f"/matches/{gone}")[0] == 404), "another server has what is deleted")
    cluster.compact()
    fleet[1].go_on()
    right(fleet.all_have(name, 2), "a server lacks what it can't be told any more")
    right(comes(lambda: fleet[1].ask(f"/matches/{gone}")[0] == 404), "a server has what was deleted, and it can't be told")
    right(len(same_lines(fleet, name)) == 3, "servers lack an entry")
