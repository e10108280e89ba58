"""How the files of a copy follow what a cluster has."""
import shutil
import signal
import subprocess
import time

from counting import right
from etcd.seen import act, done
from parties import comes


def follow_in_place(fleet):
    """A file of a copy is not emptied before it is written: to empty it waits for whatever is being synced. Left out where
    there is no strace, or it may not look at the server."""
    if shutil.which("strace") is None:
        return
    made = fleet[0].make(length=3)
    name, log = made["match"], fleet[0].folder + ".traced"
    right(fleet.all_have(name, 1), "a match is not at all servers")
    words = ["strace", "-f", "-e", "trace=openat,open", "-o", log, "-p", str(fleet[0].process.pid)]
    with subprocess.Popen(words, stderr=subprocess.DEVNULL) as traced:
        for number in range(2, 8):
            words = "resign normal" if number % 2 == 0 else "reject"
            right(act(fleet[0], made, number, words) == done(number), f"entry {number} of a match that is traced")
            time.sleep(0.5)
        if traced.poll() is not None:
            return
        is_followed = comes(lambda: opened_to_write(log, name), 20)
        traced.send_signal(signal.SIGINT)
    right(is_followed, "no file of a copy was written")
    emptied = [line for line in opened_to_write(log, name) if "O_TRUNC" in line]
    right(not emptied, f"files of a copy are emptied: {emptied[:2]}")


def opened_to_write(log, name):
    """The lines of a trace that open files of a match to write them."""
    with open(log, encoding="utf-8", errors="replace") as lines:
        return [line for line in lines if f"{name}/party-" in line and ("O_WRONLY" in line or "O_RDWR" in line)]
