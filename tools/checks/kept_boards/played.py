"""A match that is played while its pages are kept and `board` is killed, beside one that waits."""
import os
import random
import time

from counting import right
from kept_boards.folders import Folder, sections
from kept_boards.running import MOST_SECONDS, begin, comes, kill, make, run, transcript_of

KILLS = 12
# So many reads of files show whether they are whole, also of a match that is soon over.
LEAST_READS = 100
# What the names of the players are; they are no HTML.
NAMES = ("--name-x", "Anna & A", "--name-o", "<Otto>")


def play_on(room, folder):
    """Plays a match of two automatic players while `board` is killed and begun again; gives the kills."""
    table = os.path.join(room, "tables/monday")
    parties = [begin("referee", "--dir", table)]
    parties += [begin("auto", "--match", f"{table}/match-{it}", "--dir", f"{room}/{it}") for it in "xo"]
    board, kills = begin("board", f"{room}/tables", "--out", folder.path), 0
    until = time.monotonic() + MOST_SECONDS
    while (parties[0].poll() is None or folder.reads < LEAST_READS) and time.monotonic() < until:
        # (the first kill comes at once, however soon the match is over)
        if kills < KILLS and (kills == 0 or random.random() < 0.1):
            kill(board)
            folder.look()
            board, kills = begin("board", f"{room}/tables", "--out", folder.path), kills + 1
        folder.look()
        time.sleep(0.05)
    for party in parties:
        if party.poll() is None:
            party.wait(MOST_SECONDS)
    return board, kills


def check_matches(room, port):
    """A match that is played, and one that waits."""
    os.mkdir(f"{room}/public")
    for at, (name, words) in enumerate({"monday": NAMES, "waits": ()}.items()):
        make(f"{room}/tables/{name}", port + 256 * at, "--length", "2", *words)
    folder = Folder(f"{room}/public")
    right(run("board", f"{room}/tables", "--out", folder.path, "--once") == ("", "", 0), "board --once ends otherwise")
    files = ["index.html", "monday.html", "monday.svg", "waits.html", "waits.svg"]
    right(folder.names() == files, f"board --once writes {folder.names()}")
    before = folder.times()
    run("board", f"{room}/tables", "--out", folder.path, "--once")
    right(folder.times() == before, "board --once writes what has not changed")
    board, kills = play_on(room, folder)
    right(kills > 0, "board was not killed")
    compare_files(room, folder)
    after = folder.times()
    right({it: after[it] for it in files[3:]} == {it: before[it] for it in files[3:]},
          "the files of a match that waits were written")
    right(not folder.torn and folder.reads >= LEAST_READS, f"torn in {folder.reads} reads: {sorted(folder.torn)}")
    kill(board)


def compare_files(room, folder):
    """What is shown of a match that is over is what `page` and `picture` make of its transcript."""
    right(comes(lambda: sections(folder.read("index.html")) == (["waits"], ["monday"])),
          "the index lacks a match in its section")
    transcript = transcript_of(f"{room}/tables/monday")
    page, _, _ = run("page", *NAMES, text=transcript)
    picture, _, _ = run("picture", text=transcript)
    right(comes(lambda: folder.read("monday.html").decode() == page), "the page is not that of the transcript")
    right(comes(lambda: folder.read("monday.svg").decode() == picture), "the picture is not that of the transcript")
    index = folder.read("index.html").decode()
    right("<bdi>Anna &amp; A against &lt;Otto&gt;</bdi>" in index, "the index has no names")
    right(" of 2, opening</a>" in index and " wins the match</a>" in index, "the index does not say where the matches stand")
