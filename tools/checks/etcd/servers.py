"""Servers that share the matches of one cluster, each with a folder and a port of its own."""
import os
import signal

from counting import right
from parties import comes
from program import PROGRAM
from served import Served
from serving.asking import lines_of, state_of


# What a server says of itself: that it is well, or that its cluster is away.
WELL = (200, b"ok\n")
NOT_NOW = (503, b"nothing can be saved at the moment: try again later\n")
# A proxy that asks how a server is waits so many seconds for the answer.
PATIENCE = 5


class Sharing(Served):
    """A server of the fleet. What it says is kept in a file, as nobody reads it meanwhile."""

    def __init__(self, folder, port, words):
        command = [PROGRAM, "serve", "--dir", folder, "--port", str(port), "--store", words]
        super().__init__(folder, port, command)

    def stop(self):
        self.process.send_signal(signal.SIGSTOP)

    def go_on(self):
        self.process.send_signal(signal.SIGCONT)

    def health(self):
        """What it says of itself, or None: whoever asks in the very turn in which it finds its cluster away waits."""
        try:
            status, _, text = self.ask("/health", seconds=PATIENCE)
        except OSError:
            return None
        return status, text

    def is_well(self):
        """Whether it comes to say that it is well."""
        return comes(lambda: self.health() == WELL)

    def end(self):
        """Ends it, and gives what it has said."""
        self.go_on()
        self.kill()
        return self.process.stderr.read().decode()


class Fleet:
    """Servers over one cluster."""

    def __init__(self, room, port, count, cluster):
        self.servers, self.said = [], []
        for at in range(count):
            folder = os.path.join(room, f"tables{at}")
            os.mkdir(folder, 0o700)
            self.servers.append(Sharing(folder, port + at, cluster.words))

    def __getitem__(self, at):
        return self.servers[at]

    def __len__(self):
        return len(self.servers)

    def begin(self):
        for server in self.servers:
            self.begin_one(server)

    def begin_one(self, server):
        """Begins a server, and waits until it answers: its port takes connections before it has read the store."""
        server.begin()
        right(server.ask("/health")[0] == 200, "a server does not answer")

    def begin_again(self, server):
        self.said.append(server.end())
        self.begin_one(server)

    def end(self):
        for server in self.servers:
            if server.process and server.process.poll() is None:
                self.said.append(server.end())

    def lost(self):
        """How many matches servers that have ended found that another one had gone on with first."""
        lines = [line for said in self.said for line in said.splitlines()]
        return sum(int(line.rsplit(" ", 1)[1]) for line in lines if "another server went on with first: " in line)

    def all_have(self, name, number):
        """Whether all servers come to tell this entry of a match."""
        return comes(lambda: all(has(server, name, number) for server in self.servers))


def has(server, name, number):
    status, _, _ = server.ask(f"/matches/{name}/state")
    return status == 200 and state_of(server, name)["number"] >= number


def same_lines(fleet, name):
    """The transcript of a match, which all servers come to tell alike."""
    def told():
        return [lines_of(server, name) for server in fleet.servers]
    right(comes(lambda: len({tuple(lines) for lines in told()}) == 1), f"servers tell {name} in different ways: {told()}")
    return told()[0]
