"""Strangers to a server of matches: noise, large bodies, frames in parts, guesses at secrets, and floods of connections."""
import random
import resource
import socket
import threading
import time

from counting import right
from parties import MOST_SECONDS, comes
from serving.asking import JSON, begin_players, connect, has_ended, wait_for
from web_sockets import Closed, Socket

# The most connections that a server keeps open.
MOST_OPEN = 4096

# The head of a request whose body is refused before it comes.
LARGE_BODY = b"POST /matches HTTP/1.1\r\nHost: a\r\ncontent-length: %d\r\n\r\n"


def visit_as_strangers(server):
    """Strangers do what they can; a match goes on, and memory stays."""
    made = server.make(length=1)
    before = server.resident()
    slow = [begin_head(server) for _ in range(200)]
    make_noise(server)
    large = connect(server)
    large.sendall(LARGE_BODY % 999_999_999)
    right(b" 413 " in large.recv(200), "a large body")
    send_behind_a_refusal(server)
    greet_wrongly(server)
    come_from_elsewhere(server, made)
    ended, half = {}, guess(server, made)
    trickling = threading.Thread(target=trickle, args=(server, ended))
    trickling.start()
    watchers = [Socket(server.port, f"/matches/{made['match']}/live") for _ in range(50)]
    parts = send_parts(server, made)
    players = begin_players(server, made)
    right(wait_for(players), f"the match did not go on: {[player.fault for player in players]}")
    right(server.resident() - before < 40_000, f"memory grew by {server.resident() - before} kB")
    for one in slow + [large, half.sock, parts.sock] + [watcher.sock for watcher in watchers]:
        one.close()
    flood(server, server.make(length=1))
    trickling.join()
    # It gives them fifteen seconds, ten and five, and more where the machine stands still.
    for name, least in (("slow", 10), ("silent", 8), ("refused", 4)):
        right(least <= ended.get(name, 0) < MOST_SECONDS, f"a connection that was {name} ended after {ended} seconds")


def begin_head(server):
    """A connection that has sent a part of a head."""
    one = connect(server)
    one.sendall(b"GET / HTTP/1.1\r\nHost: a\r\nX-")
    return one


def send_behind_a_refusal(server):
    """Who sends all of a request that was refused by its head can read why, however late it reads."""
    size = 4_000_000
    coded = b"POST /matches HTTP/1.1\r\nHost: a\r\ntransfer-encoding: gzip, chunked\r\n\r\n"
    for head, status, word in ((LARGE_BODY % size, b" 413 ", b"4096 bytes"), (coded, b" 501 ", b"coding")):
        for _ in range(3):
            answer = answer_to_all(server, head, bytes(size))
            right(status in answer and word in answer, f"who sent all behind a refusal got {answer}")


def answer_to_all(server, head, body):
    """What is answered to a request, all of which is sent before anything is read."""
    with connect(server) as one:
        one.settimeout(MOST_SECONDS)
        try:
            one.sendall(head)
            time.sleep(0.1)
            one.sendall(body)
            return b"".join(iter(lambda: one.recv(1000), b""))
        except OSError as error:
            return str(error).encode()


def make_noise(server):
    """Connections that send bytes by chance."""
    chance = random.Random(7)
    for _ in range(300):
        with connect(server) as noise:
            # Some of it is the start of a request, whose rest is waited for.
            noise.settimeout(1)
            try:
                noise.sendall(chance.randbytes(chance.randrange(1, 3000)))
                noise.recv(100)
            except OSError:
                pass


def greet_wrongly(server):
    """Who begins without a right secret is told so, and is not let stay."""
    for hello in ("hello " + "0" * 32, "act 1 roll", "x" * 600, "hello"):
        try:
            stranger = Socket(server.port, "/play/live")
            stranger.send(hello)
            right("no" in stranger.message(), f"{hello[:20]} was answered")
            stranger.receive()
            right(False, f"{hello[:20]} was let stay")
        except (Closed, OSError):
            right(True, "")


def come_from_elsewhere(server, made):
    """A page of another site has no socket."""
    try:
        Socket(server.port, f"/matches/{made['match']}/live", origin="http://elsewhere.example")
        right(False, "a page of another site has a socket")
    except Closed as refused:
        right(refused.args == (403,), f"a page of another site got {refused}")


def send_parts(server, made):
    """A socket that has sent a message in frames of a byte each, and not its end."""
    parts = Socket(server.port, f"/matches/{made['match']}/live")
    for byte in b"act 2 roll":
        parts.frame(1 if byte == 97 else 0, bytes([byte]), fin=False)
    return parts


def trickle(server, ended):
    """A head that comes byte by byte has no time for ever, nor what comes so behind a refused one, nor a socket that says
    nothing."""
    began = time.time()
    silent = Socket(server.port, "/play/live")
    links = {"slow": connect(server), "refused": connect(server), "silent": silent.sock}
    links["refused"].sendall(LARGE_BODY % 999_999_999)
    for one in links.values():
        one.settimeout(0.5)
    times = {}
    while len(times) < len(links) and time.time() - began < MOST_SECONDS:
        for name, one in links.items():
            try:
                if name != "silent":
                    one.sendall(b"G")
                # One that was refused has its answer to the end, and goes on until it can't send any more.
                if name not in times and one.recv(1000) == b"" and name != "refused":
                    times[name] = time.time() - began
            except TimeoutError:
                pass
            except OSError:
                times.setdefault(name, time.time() - began)
    ended.update(times)


def guess(server, made):
    """Wrong secrets, and bytes that no route takes; gives a socket that has sent half of a frame."""
    name, chance = made["match"], random.Random(5)
    for _ in range(200):
        key = {"authorization": "Bearer " + chance.randbytes(16).hex()}
        if server.ask(f"/matches/{name}/actions", b"2 roll", key)[0] != 401:
            right(False, "a guess at a secret was let act")
    parts = ("", "/embed", "/state", "/states/1", "/transcript", "/mat", "/picture", "/dice", "/actions", "/live")
    for path in ("/", "/play", "/script.js", "/style.css", "/matches", "/play/live", "/health", "/metrics",
                 *(f"/matches/{name}{part}" for part in parts)):
        for body in (chance.randbytes(100), b"\xff" * 100):
            status = server.ask(path, body, JSON)[0]
            right(400 <= status < 500, f"noise to {path} came to {status}")
    for frame in ((1, b"act 2 \xff\xfe", True), (1, b"\xc3", True), (3, b"", True), (2, b"act 2 roll", True)):
        link = Socket(server.port, f"/matches/{name}/live")
        link.frame(*frame)
        right(frame[0] == 2 or has_ended(link), f"a frame {frame} was let pass")
        link.close()
    half = Socket(server.port, f"/matches/{name}/live")
    half.sock.sendall(bytes([0x81, 0x80 | 100, 1, 2, 3, 4]) + b"half")
    return half


def is_closed(one):
    """Whether the other side has closed a connection."""
    one.setblocking(False)
    try:
        return one.recv(1) == b""
    except BlockingIOError:
        return False
    except OSError:
        return True


def connect_often(server, count):
    """So many connections, as far as they are taken."""
    many = []
    for _ in range(count):
        one = socket.socket()
        one.settimeout(5)
        try:
            one.connect(("127.0.0.1", server.port))
            many.append(one)
        except OSError:
            one.close()
    return many


def flood(server, made):
    """Ten thousand connections: those beyond the limit are closed at once, and a match goes on."""
    wanted = min(10_000, resource.getrlimit(resource.RLIMIT_NOFILE)[1] - 200)
    players = begin_players(server, made)
    time.sleep(0.5)
    before = server.resident()
    many = connect_often(server, wanted)
    closed, late = set(), time.time() + MOST_SECONDS
    while len(closed) < len(many) - MOST_OPEN and time.time() < late:
        time.sleep(0.5)
        closed |= {one for one in many if one not in closed and is_closed(one)}
    right(len(many) - len(closed) <= MOST_OPEN, f"of {len(many)} connections {len(closed)} were closed")
    right(server.resident() - before < 60_000, f"{wanted} connections took {server.resident() - before} kB")
    right(wait_for(players), f"a match did not go on beside {wanted} connections")
    for one in many:
        one.close()
    right(comes(lambda: is_well(server)), "the server does not answer after a flood")


def is_well(server):
    """Whether the server answers: where it has not yet seen that others are gone, it closes a connection at once."""
    try:
        return server.ask("/health")[0] == 200
    except OSError:
        return False
