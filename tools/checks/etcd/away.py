"""What servers say and keep while their cluster is away, and nobody plays."""
import signal
import time

from counting import right
from etcd.seen import SEATED, STRANGER, greeting
from etcd.servers import NOT_NOW
from parties import comes
from serving.operators import manage

# An answer takes less than so many seconds while members hang: a server that waits for each member takes more. So often it
# is asked, and tried again.
MOST_ANSWER, OFTEN, TRIES = 4, 12, 3

def lose_while_idle(fleet, cluster):
    """A server that has nothing to save says that its cluster is away, where members are gone, and where they hang."""
    right(fleet[0].is_well(), "a server is not well at first")
    for at in range(1, cluster.count):
        cluster.kill(at)
    right(comes(lambda: fleet[0].health() == NOT_NOW, 60), f"an idle server without a cluster says {fleet[0].health()}")
    for at in range(1, cluster.count):
        cluster.begin_member(at)
    cluster.wait()
    right(fleet[0].is_well(), "an idle server is not well when the cluster is back")
    for at in range(cluster.count):
        cluster.send(at, signal.SIGSTOP)
    right(comes(lambda: fleet[0].health() == NOT_NOW, 60), f"an idle server whose members hang says {fleet[0].health()}")
    is_quick = any(longest_answer(fleet[0]) < MOST_ANSWER for _ in range(TRIES))
    right(is_quick, f"while members hang, answers take {MOST_ANSWER} s and more")
    for at in range(cluster.count):
        cluster.send(at, signal.SIGCONT)
    cluster.wait()
    right(fleet[0].is_well(), "an idle server is not well when members go on")


def longest_answer(server):
    """How long the longest of some answers takes."""
    longest = 0
    for _ in range(OFTEN):
        begun = time.monotonic()
        server.health()
        longest = max(longest, time.monotonic() - begun)
        time.sleep(0.3)
    return longest


def keep_changes(fleet, cluster):
    """What an operator changes while the cluster is away is not lost where the server is killed before it is back."""
    made = fleet[0].make(length=3)
    name = made["match"]
    right(fleet.all_have(name, 1), "a match is not at all servers")
    for at in range(1, cluster.count):
        cluster.kill(at)
    # The server takes the change in at once, and can't save it.
    _, out, said = manage(fleet[0], "--match", name, "--new-link", "x")
    right("the server has not answered within 5 seconds" in said, f"a change that can't be saved is said to be: {said}")
    new = out.strip().split("#")[1]
    fleet.said.append(fleet[0].end())
    for at in range(1, cluster.count):
        cluster.begin_member(at)
    cluster.wait()
    fleet.begin_one(fleet[0])
    for server in fleet.servers:
        seated = comes(lambda: greeting(server, new) == SEATED, 60)
        right(seated, "a link that was made while the cluster was away is lost")
    right(greeting(fleet[2], made["x"].split("#")[1]) == STRANGER, "an old link is good at another server")
