"""Requests that come to a server of matches by a proxy: what one address may have at once."""
import socket
import time

from counting import right
from parties import MOST_SECONDS, comes
from serving.asking import JSON
from web_sockets import Closed, Socket


def connect_from(server, address):
    """The status of a request on a connection that stays open, and the connection."""
    one = socket.create_connection(("127.0.0.1", server.port), timeout=MOST_SECONDS)
    one.sendall(f"GET /health HTTP/1.1\r\nHost: a\r\nX-Forwarded-For: {address}\r\n\r\n".encode())
    return int(one.recv(1000).split()[1]), one


def connect_by_a_proxy(server):
    """One address has so many connections at once, and no more; a connection is that of its latest request."""
    address, elsewhere, asked = connect_many(server)
    right([status for status, _ in asked] == [200] * 128 + [429],
          f"129 connections came to {[status for status, _ in asked][-3:]}")
    status, other = connect_from(server, elsewhere)
    right(status == 200, f"another address came to {status}")
    first = asked[0][1]
    first.sendall(f"GET /health HTTP/1.1\r\nHost: a\r\nX-Forwarded-For: {elsewhere}\r\n\r\n".encode())
    right(b" 200 " in first.recv(1000), "a connection does not take a request of another address")
    status, again = connect_from(server, address)
    right(status == 200, f"after a connection has another address the next came to {status}")
    for one in [one for _, one in asked] + [other, again]:
        one.close()
    right(comes(lambda: is_served(server, address)), "after all were closed none more is served")


def connect_many(server):
    """An address, another one, and what 129 requests of the first come to at once, with their connections. These are closed
    after some idle seconds, so another address asks where the machine needs as many for it."""
    for network in (113, 114, 115, 116, 117):
        address, begun = f"203.0.{network}.20", time.monotonic()
        asked = [connect_from(server, address) for _ in range(129)]
        if asked[-1][0] == 429 or time.monotonic() - begun < 5:
            break
        for _, one in asked:
            one.close()
    return address, f"203.0.{network}.21", asked


def is_served(server, address):
    """Whether a request on a new connection is."""
    status, one = connect_from(server, address)
    one.close()
    return status == 200


def make_from(server, address):
    """The status of an answer to one who makes a match and comes by a proxy."""
    return server.ask("/matches", b'{"length":1}', {**JSON, "x-forwarded-for": address})[0]


def sockets_from(server, path, address, count):
    """So many sockets of one who comes by a proxy, as far as they are given, and the status of the one that is not."""
    found = []
    for _ in range(count):
        try:
            found.append(Socket(server.port, path, address=address))
        except Closed as refused:
            return found, refused.args
    return found, ()


def come_by_a_proxy(server):
    """What one address may have is bounded, whatever it says of itself, and others go on."""
    # The server counts in each minute since it began, so none may end meanwhile: else others try it again.
    for network in (113, 114, 115, 116, 117):
        while not server.listened - server.began + 1 < (time.time() - server.began) % 60 < 45:
            time.sleep(0.5)
        minute = (time.time() - server.began) // 60
        faults = make_by_a_proxy(server, network)
        if not faults or (time.time() - server.began) // 60 == minute:
            break
    right(not faults, f"matches made by a proxy: {faults}")
    watch_by_a_proxy(server, f"/matches/{server.make(length=1)['match']}/live")


def make_by_a_proxy(server, network):
    """An address, or a network of IPv6, makes so many matches in a minute, in whatever form it is written; gives what is
    wrong. Addresses of another network are others."""
    address, six = f"203.0.{network}.7", f"2001:db8:{network}"
    made = [make_from(server, f"{index}.1.2.3, {address}") for index in range(11)]
    faults = [] if made == [201] * 10 + [429] else [f"eleven matches of an address came to {made}"]
    rows = ((f"{address}, 203.0.{network}.8", 201, "another address makes no match"),
            (f"::ffff:{address}", 429, "the same address in another form makes a match"),
            *10 * ((f"{six}::1", 201, "an address of IPv6 makes no match"),),
            (f"{six}:0:ffff::2", 429, "another address of a network makes a match"),
            (f"{six}:1::1", 201, "another network makes no match"))
    return faults + [fault for name, status, fault in rows if make_from(server, name) != status]


def watch_by_a_proxy(server, path):
    """An address has so many sockets at once, and others go on."""
    found, status = sockets_from(server, path, "203.0.113.7", 65)
    right(len(found) == 64 and status == (429,), f"an address has {len(found)} sockets, and then {status}")
    right(sockets_from(server, "/play/live", "203.0.113.7", 1)[1] == (429,), "an address has one socket more to play by")
    others, status = sockets_from(server, path, "203.0.113.8", 2)
    right(len(others) == 2 and status == (), f"another address has {len(others)} sockets, and then {status}")
    for one in found[:3] + others:
        one.sock.close()
    found = found[3:]
    # It sees within a second that they are gone.
    comes(lambda: found.extend(sockets_from(server, path, "203.0.113.7", 64 - len(found))[0]) or len(found) == 64)
    status = sockets_from(server, path, "203.0.113.7", 1)[1]
    right(len(found) == 64 and status == (429,),
          f"after three have gone an address has {len(found)} sockets, and then {status}")
    for one in found:
        one.sock.close()
