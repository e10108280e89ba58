"""An etcd cluster of members on this machine."""
import json
import signal
import subprocess
import time
import urllib.error
import urllib.request

from parties import comes


class Cluster:
    """Members of a cluster, each of which can be killed, stopped and begun again."""

    def __init__(self, room, port, count):
        self.room, self.count = room, count
        self.clients = [f"127.0.0.1:{port + 2 * at}" for at in range(count)]
        self.peers = [f"127.0.0.1:{port + 2 * at + 1}" for at in range(count)]
        self.members = [None] * count

    @property
    def words(self):
        """What the option --store names."""
        return "etcd:" + ",".join(self.clients)

    def begin(self):
        for at in range(self.count):
            self.begin_member(at)
        self.wait()

    def begin_member(self, at):
        every = ",".join(f"m{number}=http://{peer}" for number, peer in enumerate(self.peers))
        client, peer = f"http://{self.clients[at]}", f"http://{self.peers[at]}"
        words = ["etcd", "--name", f"m{at}", "--data-dir", f"{self.room}/member{at}", "--listen-client-urls", client,
                 "--advertise-client-urls", client, "--listen-peer-urls", peer, "--initial-advertise-peer-urls", peer,
                 "--initial-cluster", every, "--auto-compaction-retention", "1h"]
        with open(f"{self.room}/member{at}.log", "ab") as log:
            self.members[at] = subprocess.Popen(words, stdout=log, stderr=log)

    def answers(self):
        """Whether a member writes, which it does only with the others."""
        for client in self.clients:
            request = urllib.request.Request(f"http://{client}/v3/kv/put", b'{"key":"YQ=="}')
            try:
                with urllib.request.urlopen(request, timeout=2):
                    return True
            except (urllib.error.URLError, OSError):
                pass
        return False

    def ask(self, path, body):
        """What the first member that answers says."""
        for client in self.clients:
            try:
                with urllib.request.urlopen(urllib.request.Request(f"http://{client}{path}", body), timeout=10) as answer:
                    return json.loads(answer.read())
            except (urllib.error.URLError, OSError):
                pass
        raise SystemExit(f"the cluster does not answer {path}")

    def compact(self):
        """Forgets all that is older than now: nobody can be told of it any more."""
        now = self.ask("/v3/kv/range", b'{"key":"YQ=="}')["header"]["revision"]
        self.ask("/v3/kv/compaction", json.dumps({"revision": now, "physical": True}).encode())

    def wait(self):
        if not comes(self.answers):
            raise SystemExit("the cluster does not answer")

    def kill(self, at):
        self.members[at].kill()
        self.members[at].wait()

    def send(self, at, number):
        self.members[at].send_signal(number)

    def stop(self, at, seconds):
        """Stops a member for so long: it accepts, and answers nothing."""
        self.send(at, signal.SIGSTOP)
        time.sleep(seconds)
        self.send(at, signal.SIGCONT)

    def end(self):
        for member in self.members:
            if member and member.poll() is None:
                member.kill()
                member.wait()
