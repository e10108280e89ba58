"""What `board` refuses, and what it leaves out."""
import os
import shutil

from counting import right
from kept_boards.running import run


def check_refusals(room):
    """What is refused, and what is left out."""
    for name, why in (("missing", "is missing: make it first"), ("tables/monday/match", "is no folder: name another one")):
        _, error, status = run("board", room, "--out", f"{room}/{name}")
        said = f"bg_relay: {room}/{name} {why}\n"
        right((status, error) == (2, said), f"{name} as a folder for pages: {status}: {error}")
    _, _, status = run("board", "--out", room)
    right(status == 2, f"no folder: {status}")
    os.mkdir(f"{room}/empty")
    _, error, status = run("board", f"{room}/empty", "--out", f"{room}/empty", "--once")
    right(status == 0 and f"bg_relay: {room}/empty has no match" in error, f"no match: {status}: {error}")
    for unread in ("missing", "tables/monday/match/below"):
        _, error, status = run("board", f"{room}/{unread}", f"{room}/tables", "--out", f"{room}/empty", "--once")
        is_said = error.startswith(f"bg_relay: {room}/{unread} can't be read: ")
        right(status == 1 and is_said and "monday.html" in os.listdir(f"{room}/empty"),
              f"{unread} as a folder of matches: {status}: {error}: {os.listdir(f'{room}/empty')}")
    damaged = f"{room}/odd/a b'<"
    shutil.copytree(f"{room}/tables/monday", damaged)
    shutil.copytree(f"{room}/tables/monday", f"{room}/odd/deep/er/index")
    os.mkdir(f"{room}/other")
    _, error, status = run("board", f"{room}/odd", "--out", f"{room}/other", "--once")
    names = os.listdir(f"{room}/other")
    right(status == 0 and "a-b--.html" in names and "deep-er-index.html" in names, f"odd names: {status}: {names}: {error}")


def check_unread(room):
    """Saves that are damaged, and such as can't be opened: both are told of, and neither match is shown."""
    for name in ("closed", "damaged"):
        os.makedirs(f"{room}/unread/{name}")
        shutil.copy(f"{room}/tables/monday/match", f"{room}/unread/{name}")
    for slot in (0, 1):
        os.mkdir(f"{room}/unread/closed/party-0.{slot}")
        with open(f"{room}/unread/damaged/party-0.{slot}", "w", encoding="utf-8") as file:
            file.write("no save\n")
    os.mkdir(f"{room}/none")
    _, error, status = run("board", f"{room}/unread", "--out", f"{room}/none", "--once")
    said = "".join(f"bg_relay: {room}/unread/{name} has saves that can't be read\n" for name in ("closed", "damaged"))
    right((status, error) == (0, said), f"saves that can't be read: {status}: {error}")
    right(os.listdir(f"{room}/none") == ["index.html"], f"saves that can't be read are shown: {os.listdir(f'{room}/none')}")
