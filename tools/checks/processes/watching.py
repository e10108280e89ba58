"""What who watches keeps in files, and what is told at a screen of how far a match is."""
import math
import os
import pty
import resource
import select
import subprocess
import time

from counting import right
from parties import MOST_SECONDS, Match, Party, comes, says
from processes.running import check, end, start, started
from program import PROGRAM


def text_of(path):
    """What a file has; none where it is not there."""
    try:
        with open(path, encoding="ascii") as file:
            return file.read()
    except FileNotFoundError:
        return None


def check_kept_files(room):
    """A watcher leaves what is there until it hears the referee, and may go on where a file can't be written."""
    top = room.top
    told = ["--match", f"{top}/table/match-watch"]
    old, new = f"{top}/old-transcript", f"{top}/new-board"

    with open(old, "w", encoding="ascii") as file:
        file.write("more of the match\n")
    referee = Party(Match(f"{top}/table"), 0)
    watcher = start("watch", *told, "--transcript", old, "--board", new)
    right(comes(lambda: text_of(new)), "the board of a watcher that begins is not written")
    time.sleep(1.5)
    right(text_of(old) == "more of the match\n", "the transcript was written before the referee was heard")
    referee.tell(3)
    right(comes(lambda: (text_of(old) or "").startswith("length 1")), "the transcript was not written when the referee was heard")
    end(watcher)
    referee.close()
    page = ["--page", f"{top}/no-such-folder/page"]
    check("a page that can't be written", 1, "length 1", "/page could not be written: ", "watch", *told, *page)
    watcher = start("watch", *told, *page, "--go-on", "--quiet")
    _, said = says(watcher, "could not be written: ")
    # It tries once a second.
    time.sleep(2.5)
    right(watcher.poll() is None, "a watcher that goes on ended")
    os.mkdir(f"{top}/no-such-folder")
    right(comes(lambda: text_of(page[1])), "the page was not written when it could be")
    watcher.kill()
    said = [line for line in (said + watcher.communicate()[1].decode()).splitlines() if "no word" not in line]
    right(len(said) == 1 and "could not be written: " in said[0], f"a watcher that goes on said {said}")
    check_each_named(top, told)
    check_without_room(top, told)
    check_names_taken(top, told)


def check_each_named(top, told):
    """Of two files that can't be written, a watcher that goes on names each once, and writes each as soon as it can."""
    kept = {"--board": f"{top}/no-board/board", "--page": f"{top}/no-page/page"}
    watcher = start("watch", *told, *(word for pair in kept.items() for word in pair), "--go-on", "--quiet")
    _, said = says(watcher, "could not be written: ", len(kept))
    for path in reversed(kept.values()):
        os.mkdir(os.path.dirname(path))
        right(comes(lambda at=path: text_of(at)), f"{path} was not written when it could be")
    watcher.kill()
    said = [line for line in (said + watcher.communicate()[1].decode()).splitlines() if "no word" not in line]
    named = [line.partition(" could not be written: ")[0] for line in said]
    right(named == [f"bg_relay: {path}" for path in kept.values()], f"a watcher whose files can't be written said {said}")


def check_without_room(top, told):
    """A watcher that goes on where no file may grow leaves none beside its file, and writes that once there is room."""
    folder = f"{top}/no-room"
    os.mkdir(folder)
    words = [PROGRAM, "watch", *told, "--page", f"{folder}/page", "--go-on", "--quiet"]
    # A file that may not grow is to be told to the watcher, and not to end it.
    limited = ["sh", "-c", "trap '' XFSZ; ulimit -S -f 0; exec \"$@\"", "sh", *words]
    watcher = subprocess.Popen(limited, stdin=subprocess.DEVNULL, stdout=subprocess.PIPE, stderr=subprocess.PIPE)
    started.append(watcher)
    is_said, said = says(watcher, "/page could not be written: ")
    right(is_said, f"a watcher without room said {said}")
    # It tries once a second.
    time.sleep(3.5)
    right(comes(lambda: not os.listdir(folder), 5), f"a watcher without room left {sorted(os.listdir(folder))}")
    hard = resource.prlimit(watcher.pid, resource.RLIMIT_FSIZE)[1]
    resource.prlimit(watcher.pid, resource.RLIMIT_FSIZE, (hard, hard))
    right(comes(lambda: text_of(f"{folder}/page")), "the page was not written when there was room")
    right(os.listdir(folder) == ["page"], f"a watcher that has room again left {sorted(os.listdir(folder))}")
    end(watcher)


def check_names_taken(top, told):
    """Where all names for a new file are taken, a watcher says what to delete."""
    folder = f"{top}/taken-names"
    os.mkdir(folder)
    for name in ("page.new", *(f"page.new{number}" for number in range(1, 99))):
        with open(f"{folder}/{name}", "w", encoding="ascii"):
            pass
    why = "/page could not be written: 99 files beside it end in .new to .new98: delete them\n"
    check("a page beside 99 new files", 1, "length 1", why, "watch", *told, "--page", f"{folder}/page")
    right(len(os.listdir(folder)) == 99, f"a watcher that found no name left {sorted(os.listdir(folder))}")


def check_progress(room):
    """Who watches the standard error of `loop` is told each second how far it is."""
    top = room.top
    os.mkdir(f"{top}/watched")
    screen, end_of_it = pty.openpty()
    words = ["loop", "--seed", "1", "--length", "99", "--rounds", "1000000", "--dir", f"{top}/watched"]
    begun, said, times = time.monotonic(), "", []
    loop = subprocess.Popen([PROGRAM, *words], stdin=subprocess.DEVNULL, stdout=subprocess.DEVNULL, stderr=end_of_it)
    # It is said once a second, and later where the machine stands still: in one pause of some it does not.
    while len(times) < 3 or len(times) < 30 and least_pause(times) >= 1.9:
        if not select.select([screen], [], [], MOST_SECONDS)[0]:
            break
        said += os.read(screen, 65536).decode()
        times += [time.monotonic()] * (said.count(" of 1000000 rounds are done") - len(times))
    loop.kill()
    loop.wait()
    os.close(end_of_it)
    os.close(screen)
    is_each_second = 3 <= len(times) <= times[-1] - begun + 1 and least_pause(times) < 1.9
    right(is_each_second, f"it is said, and not each second: {said}")


def least_pause(times):
    """The shortest time between two of these that follow each other."""
    return min((later - sooner for sooner, later in zip(times, times[1:])), default=math.inf)
