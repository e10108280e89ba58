"""PostgreSQL in a folder of its own, for checks and benches of hosts over it (examples/postgres)."""
import ctypes
import glob
import os
import pathlib
import pwd
import shutil
import signal
import subprocess
import sys
import time

sys.path.insert(0, str(pathlib.Path(__file__).resolve().parents[2] / "examples" / "postgres"))

MOST_SECONDS = 1200


class Missing(Exception):
    """What this machine lacks for it."""


def find_programs():
    """The folder of PostgreSQL's programs."""
    found = [shutil.which("initdb"), *sorted(glob.glob("/usr/lib/postgresql/*/bin/initdb"))]
    initdb = next((os.path.realpath(path) for path in found if path), None)
    if initdb is None:
        raise Missing("there is no PostgreSQL (initdb)")
    try:
        ctypes.CDLL("libpq.so.5")
    except OSError:
        raise Missing("there is no libpq") from None
    return os.path.dirname(initdb)


def owner():
    """As whom PostgreSQL runs: as this user, or, where that is root, as postgres."""
    if os.geteuid() != 0:
        return {}
    try:
        entry = pwd.getpwnam("postgres")
    except KeyError:
        raise Missing("PostgreSQL runs not as root, and there is no user postgres") from None
    return {"user": entry.pw_uid, "group": entry.pw_gid, "extra_groups": []}


class Cluster:
    """PostgreSQL, which listens on a socket in its folder alone."""

    def __init__(self, folder):
        self.folder, self.programs, self.user, self.process = folder, find_programs(), owner(), None
        if self.user:
            os.chown(folder, self.user["user"], self.user["group"])
        words = ["-D", f"{folder}/data", "-U", "postgres", "-A", "trust", "-E", "UTF8", "--no-locale", "-N"]
        program = f"{self.programs}/initdb"
        subprocess.run([program, *words], cwd=folder, check=True, stdout=subprocess.DEVNULL, **self.user)
        self.start()

    def start(self):
        from database import Database, DatabaseError  # It needs libpq.

        words = ["-D", f"{self.folder}/data", "-k", self.folder, "-c", "listen_addresses="]
        with open(f"{self.folder}/log", "ab") as log:
            self.process = subprocess.Popen(
                [f"{self.programs}/postgres", *words], cwd=self.folder, stdout=log, stderr=log, **self.user
            )
        until = time.monotonic() + MOST_SECONDS
        while time.monotonic() < until:
            try:
                return Database(self.where("postgres"))
            except DatabaseError:
                time.sleep(0.05)
        raise SystemExit(f"PostgreSQL does not start: {pathlib.Path(self.folder, 'log').read_text()}")

    def where(self, name):
        return f"host={self.folder} user=postgres dbname={name}"

    def stop_at_once(self):
        """Without writing anything: what was committed is in its log."""
        self.process.send_signal(signal.SIGQUIT)
        self.process.wait()

    def make(self, name):
        from database import Database  # It needs libpq.

        Database(self.where("postgres")).ask(f"create database {name}")
        return self.where(name)
