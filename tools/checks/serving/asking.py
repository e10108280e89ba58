"""What checks of a server of matches ask it, and its players, whom they wait for."""
import json
import socket

from parties import MOST_SECONDS
from served import Player
from web_sockets import Closed

JSON = {"content-type": "application/json"}


def secret_of(link):
    return link.split("#")[1]


def bearer(link):
    """The headers by which a script acts for the seat of a link."""
    return {"authorization": "Bearer " + secret_of(link)}


def lines_of(server, name):
    return server.ask(f"/matches/{name}/transcript")[2].decode().splitlines()


def state_of(server, name):
    return json.loads(server.ask(f"/matches/{name}/state")[2])


def names_on(server, query=""):
    """The names of the matches on the first page of a list."""
    return [one["match"] for one in json.loads(server.ask("/matches?" + query)[2])["matches"]]


def counted(server):
    """What is counted, by names with labels."""
    rows = [line.rsplit(" ", 1) for line in server.ask("/metrics")[2].decode().splitlines() if not line.startswith("#")]
    return {name: float(count) for name, count in rows}


def connect(server):
    """A connection that says nothing yet."""
    return socket.create_connection(("127.0.0.1", server.port))


def has_ended(link):
    """Whether the other side ends a socket within some seconds."""
    link.sock.settimeout(MOST_SECONDS)
    try:
        while True:
            link.receive()
    except Closed:
        return True
    except OSError:
        return False


def players_of(server, made, seed=""):
    """Both players of a match, who have not begun; those of several matches have seeds of their own."""
    return [Player(server.port, secret_of(made[seat]), seed + seat) for seat in "xo"]


def begin_players(server, made, seed=""):
    """Both players of a match, who begin."""
    players = players_of(server, made, seed)
    for player in players:
        player.start()
    return players


def wait_for(players, seconds=MOST_SECONDS):
    """Waits until each player has ended, for so long at most; gives whether all have played to the end without a fault."""
    for player in players:
        player.join(seconds)
    return all(player.over and not player.fault for player in players)
