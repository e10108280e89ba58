"""Ports of the machine that no other process has, nor another check, for checks whose processes are to have them."""
import errno
import re
import socket

# The first ports of the system's own choice, where it says nothing else.
EPHEMERAL = 32768
# So many ports are claimed at once.
BLOCK = 256
# What this process has claimed, until it ends.
claims = []


def taken(kind):
    """The ports that sockets of this kind have, "udp" or "tcp", by what the system tells; none where it tells nothing."""
    found = set()
    for name in (kind, f"{kind}6"):
        try:
            with open(f"/proc/net/{name}", encoding="ascii") as file:
                found |= {int(port, 16) for port in re.findall(r"^ *\d+: [0-9A-F]+:([0-9A-F]{4}) ", file.read(), re.M)}
        except OSError:
            pass
    return found


def claim(first, count):
    """Whether no check has claimed one of these ports; then they are this one's. A claim is the name of a socket without a
    file, which Linux lets one process have, and which goes with it; elsewhere nothing is claimed."""
    found = []
    try:
        for block in range(first // BLOCK, (first + count - 1) // BLOCK + 1):
            found.append(socket.socket(socket.AF_UNIX))
            found[-1].bind(f"\0bg_relay ports {block}")
    except OSError as fault:
        for one in found:
            one.close()
        return fault.errno != errno.EADDRINUSE
    claims.extend(found)
    return True


def free_ports(first, count, kind="udp"):
    """The first of so many ports in a row that no process has: this one, or one above it. No other check is given one of
    them until this process ends."""
    others = taken(kind)
    while first + count < EPHEMERAL:
        if not any(port in others for port in range(first, first + count)) and claim(first, count):
            break
        first += 1
    return first
