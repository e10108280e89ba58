"""Parties of a match that a check plays by hand, and strangers: sockets, packets and seals of its own (docs/FORMATS.md,
"Packets", "Sealed datagrams"); and what can be seen of processes from outside. States are waited for, as a busy machine is late."""
import fcntl
import hashlib
import hmac
import math
import os
import re
import socket
import struct
import subprocess
import time

HOST = "127.0.0.1"
# For so long a state is waited for that comes at once where the machine is idle.
MOST_SECONDS = 300
# Codes of kinds, of entries and actions, and of what a player resigns.
WANT, CLAIM, ENTRIES = 1, 2, 3
OPENING, ROLL, MOVE, RESIGN, REJECT = 1, 2, 6, 7, 9
NORMAL, GAMMON, BACKGAMMON = 1, 2, 3
# Which way a datagram goes, the sign of life, and what the referee tells a seat of the other one before it answers that.
TO_REFEREE, FROM_REFEREE = 0, 1
SIGN = b"\0"
NOTICES = UNHEARD, HERE, AWAY = b"\0\0", b"\0\1", b"\0\2"


def comes(holds, seconds=MOST_SECONDS):
    """Whether this comes to hold within so many seconds, or does when they are over."""
    until = time.monotonic() + seconds
    is_late = False
    while not holds():
        if is_late:
            return False
        time.sleep(0.02)
        is_late = time.monotonic() > until
    return True


def says(process, word, times=1):
    """Whether a process comes to say a word so often on its standard error, which is a pipe; and what it has said by then."""
    said, pipe = "", process.stderr.fileno()
    os.set_blocking(pipe, False)

    def has_said():
        nonlocal said
        said += (process.stderr.read() or b"").decode()
        return said.count(word) >= times

    is_said = comes(has_said)
    os.set_blocking(pipe, True)
    return is_said, said


def mac(key, text):
    return hmac.new(key, text, hashlib.sha256).digest()


def seal(key, direction, party, packet):
    """The datagram of a packet (docs/FORMATS.md, "Sealed datagrams")."""
    return packet + mac(key, b"bg_relay seal 1" + bytes([direction, party]) + packet)[:16]


class Match:
    """The match of a referee's folder: what its line says, its keys, and its packets, sealed or not."""

    def __init__(self, folder):
        with open(f"{folder}/match", encoding="utf-8") as file:
            self.line = file.readline()
        self.number, self.length, self.rules, self.port = map(int, re.findall(r"\b\d+\b", self.line))
        with open(f"{folder}/key-secret", "rb") as file:
            self.secret = file.read()

    def key(self, party):
        """The key of a party: all who watch have that of party 3."""
        return mac(self.secret, b"bg_relay key 1" + self.number.to_bytes(8, "big") + bytes([min(party, 3)]))

    def sealed(self, sender, to, packet):
        """The datagram by which a packet goes from one party to another, one of which is the referee."""
        party = max(sender, to)
        return seal(self.key(party), FROM_REFEREE if sender == 0 else TO_REFEREE, party, packet)

    def opened(self, sender, to, datagram):
        """The packet of a datagram; none where it was not sealed to go from the one party to the other."""
        packet = datagram[:-16]
        return packet if datagram == self.sealed(sender, to, packet) else None

    def packet(self, kind, body):
        return b"BG" + bytes([2, kind]) + self.number.to_bytes(8, "big") + bytes([self.rules]) + body

    def want(self, sender, held):
        return self.packet(WANT, bytes([sender]) + held.to_bytes(4, "big"))

    def claim(self, sender, number, *action):
        return self.packet(CLAIM, bytes([sender]) + number.to_bytes(4, "big") + bytes(action))

    def entry(self, number, *entry):
        return self.entries(number, [entry])

    def entries(self, number, entries):
        return self.packet(ENTRIES, number.to_bytes(4, "big") + bytes([len(entries), *(byte for entry in entries for byte in entry)]))


class Stranger:
    """A socket of the check's own, on any port that is free."""

    def __init__(self, port=0, host=HOST):
        self.socket = socket.socket(socket.AF_INET, socket.SOCK_DGRAM)
        self.socket.bind((host, port))

    def send(self, port, datagram):
        self.socket.sendto(datagram, (HOST, port))

    def received(self, seconds=MOST_SECONDS):
        """A datagram that comes in so many seconds, with the port that it comes from; none where none does."""
        self.socket.settimeout(max(seconds, 0.001))
        try:
            datagram, (_, port) = self.socket.recvfrom(512)
        except (TimeoutError, BlockingIOError):
            return None
        return datagram, port

    def close(self):
        self.socket.close()


class Party(Stranger):
    """A party of a match that the check plays: a socket on its port, or on the same port of another address."""

    def __init__(self, match, number, host=HOST):
        super().__init__(match.port + number, host)
        self.match, self.number = match, number

    def tell(self, to, packet=SIGN):
        """Sends a packet to a party, or asks the referee whether it is there, or answers such a question."""
        self.send(self.match.port + to, self.match.sealed(self.number, to, packet))

    def heard(self, seconds=MOST_SECONDS):
        """A packet that comes in so many seconds, with the party that it is from; others, and notices, are passed over."""
        until = time.monotonic() + seconds
        while (found := self.received(until - time.monotonic())) is not None:
            datagram, port = found
            sender = port - self.match.port
            if 0 <= sender < 256 and (sender == 0) != (self.number == 0):
                packet = self.match.opened(sender, self.number, datagram)
                if packet is not None and packet not in NOTICES:
                    return packet, sender
        return None

    def hears(self, seconds=MOST_SECONDS):
        """The party that a sign of life comes from in so many seconds: a question, or an answer to one."""
        until = time.monotonic() + seconds
        while (found := self.heard(until - time.monotonic())) is not None:
            if found[0] == SIGN:
                return found[1]
        return None

    def questions(self, seconds):
        """How many questions come in so many seconds."""
        until, count = time.monotonic() + seconds, 0
        while self.hears(max(until - time.monotonic(), 0)) is not None:
            count += 1
        return count

    def least_pause(self):
        """The shortest time between two questions of thirty; one that is below two seconds will do."""
        least, last = math.inf, None
        for _ in range(30):
            if least < 2 or self.hears() is None:
                break
            now = time.monotonic()
            if last is not None:
                least = min(least, now - last)
            last = now
        return least


class Typist:
    """A process whose standard input is a pipe that stays open, and its screen, both streams of output."""

    def __init__(self, *command, environment=None):
        pipe = subprocess.PIPE
        self.process = subprocess.Popen(command, stdin=pipe, stdout=pipe, stderr=subprocess.STDOUT, env=environment)
        os.set_blocking(self.process.stdout.fileno(), False)
        self.screen = ""

    def type(self, text):
        try:
            self.process.stdin.write(text.encode())
            self.process.stdin.flush()
        except BrokenPipeError:
            pass

    def sees(self, word, times=1):
        """Whether the screen comes to have a word so often."""
        return comes(lambda: self.read().count(word) >= times)

    def read(self):
        self.screen += (self.process.stdout.read() or b"").decode()
        return self.screen


def hosts(port):
    """The addresses of the machine's UDP sockets that have this port; one may be missed while others are closed."""
    with open("/proc/net/udp", encoding="ascii") as file:
        ends = [line.split()[1].split(":") for line in file.readlines()[1:]]
    return {socket.inet_ntoa(struct.pack("=I", int(host, 16))) for host, at in ends if int(at, 16) == port}


def is_locked(folder):
    """Whether a process holds the lock of a folder."""
    opened = os.open(folder, os.O_RDONLY)
    try:
        fcntl.flock(opened, fcntl.LOCK_EX | fcntl.LOCK_NB)
    except BlockingIOError:
        return True
    finally:
        os.close(opened)
    return False


def has_open(process, path):
    """Whether a process has opened a file."""
    folder = f"/proc/{process.pid}/fd"
    try:
        return any(os.path.exists(f"{folder}/{name}") and os.path.samefile(f"{folder}/{name}", path)
                   for name in os.listdir(folder))
    except OSError:
        return False


def seconds_of(process):
    """How many seconds of a processor a process has taken."""
    with open(f"/proc/{process.pid}/stat", encoding="utf-8") as file:
        fields = file.read().rsplit(")", 1)[1].split()
    return (int(fields[11]) + int(fields[12])) / os.sysconf("SC_CLK_TCK")
