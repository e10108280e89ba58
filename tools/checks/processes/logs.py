"""What a referee and a watcher say for a log, and what `list` says of their match meanwhile."""
import os
import re
import signal

from counting import right
from parties import MOST_SECONDS, Match, comes, says
from processes.running import check, end, opener, run, start, transcript


def check_log(room):
    """What a referee and a watcher say for a log, while a match is played that stops and goes on; and what `list` says of
    it."""
    table, port = f"{room.top}/log/table", room.port + 20
    os.makedirs(f"{room.top}/log")
    run("new", "--length", "3", "--port", str(port), "--dir", table)
    match = Match(table)
    front = f"on port {port}: match {match.number}, length 3, rules 1, "
    referee = start("referee", "--dir", table)
    opener(table)
    check_listed(table, f"  {match.number}  0-0 of 3  1     ")
    another = ("new", "--length", "1", "--port", str(port), "--dir", f"{room.top}/log/next")
    told = f"the match of {table}/match has the ports {port} to {port + 255}: choose"
    check("the ports of a match that goes on", 2, "", told, *another)
    said = heard_before_kill(referee)
    right(said == [f"bg_relay: the referee begins {front}0 entries, 0-0"], f"a referee that was killed said {said}")
    played = check_logs(room.top, match, front)
    entries = len(transcript(table))
    check_listed(table, f" wins the match  {entries:<7}  ", is_open=False)
    score = re.search(r" score (\d+-\d+) ", run("judge", stdin=played).stdout.decode())[1]
    check_listed(table, f"  {score} of 3  ", is_open=False)
    again = start("referee", "--dir", table)
    if comes(lambda: tells_locks(table) or again.poll() is not None) and again.poll() is None:
        # It would end by itself meanwhile.
        os.kill(again.pid, signal.SIGSTOP)
        if tells_locks(table):
            check("the ports of a match that is over, and served again", 2, "", "choose a port", *another)
    end(again)
    check("the ports of a match that is over", 0, f"port {port}", "", *another)


def check_logs(top, match, front):
    """The match goes on to its end: the referee and a watcher log that, and seats nothing. The transcript is given back."""
    table = f"{top}/log/table"
    referee = start("referee", "--dir", table)
    watcher = start("watch", "--match", f"{table}/match-watch")
    # Who is there is looked at once a second, and a match may be over sooner.
    before = [says(party, " is heard\n")[1] for party in (referee, watcher)]
    others = [watcher, *(start("auto", "--player", name, "--match", f"{table}/match-{name.lower()}", "--dir",
                               f"{top}/log/{name}") for name in "XO")]
    outputs = [party.communicate(timeout=MOST_SECONDS) for party in (referee, *others)]
    said, watched, *seats = [(first + err.decode()).splitlines() for first, (_, err) in zip([*before, "", ""], outputs)]
    right(outputs[0][0] == b"", f"a referee printed {outputs[0][0]}")
    right(seats == [[], []], f"seats said {seats}")
    results = results_of(outputs[1][0].decode())
    begins = f"bg_relay: the referee begins {front}1 entries, 0-0"
    seen, heard = "bg_relay: watcher 3 is heard", {f"bg_relay: the seat of {name} is heard" for name in "XO"}
    told = [line for line in said if line not in heard]
    right(told == [begins, seen, *results, "bg_relay: the referee ends: the match is over"] and len(said) - len(told) <= 2,
          f"a referee said {said}, of a match with {results}")
    front = front.replace(f"port {match.port}", f"port {match.port + 3}")
    ends = "bg_relay: watcher 3 ends: the match is over"
    right(watched == [f"bg_relay: watcher 3 begins {front}0 entries, 0-0", "bg_relay: the referee is heard", *results, ends],
          f"a watcher said {watched}, of a match with {results}")
    return outputs[1][0]


def heard_before_kill(process):
    """What a process has said on the standard error when it is killed."""
    process.kill()
    return process.communicate()[1].decode().splitlines()


def results_of(text):
    """What is said of the results in a transcript: the judge tells the score behind each entry."""
    lines, results, last = text.splitlines(), [], (0, 0)
    for count in range(2, len(lines) + 1):
        # A game ends where it is opened anew, and with the last entry.
        if count < len(lines) and not lines[count].startswith("open "):
            continue
        board = run("judge", stdin="\n".join(lines[:count] + [""]).encode()).stdout.decode().splitlines()
        score = tuple(map(int, re.search(r" score (\d+)-(\d+) ", board[0]).groups()))
        won = max(now - before for now, before in zip(score, last))
        winner = "X" if score[0] > last[0] else "O"
        results.append(f"bg_relay: game {len(results) + 1}: {winner} wins {won} point{'s' * (won > 1)}, {score[0]}-{score[1]}")
        last = score
    return [*results, f"bg_relay: the match is over: {winner} wins, {score[0]}-{score[1]}"]


def tells_locks(folder):
    """Whether the system tells the lock of a folder whose referee runs."""
    found = os.stat(folder)
    place = f" {os.major(found.st_dev):02x}:{os.minor(found.st_dev):02x}:{found.st_ino} "
    with open("/proc/locks", encoding="ascii") as file:
        return place in file.read()


def check_listed(folder, words, is_open=True):
    """The line of a match has these words, says whether it is open where the system does, and that it is saved."""
    if is_open and not tells_locks(folder):
        print(f"the system tells no lock of {folder}, so `list` can't say that it is open")
        is_open = False
    done = run("list", folder)
    line, last = done.stdout.decode(), f"  {'open' if is_open else '-   '}  saved\n"
    right((done.returncode, done.stderr) == (0, b"") and words in line and line.endswith(last), f"list: {done}")
