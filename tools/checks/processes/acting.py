"""What `act` does and prints, by itself and beside somebody else who plays for the same player."""
from counting import right
from parties import MOST_SECONDS, MOVE, OPENING, Party
from processes.running import check, end, make, run, start, transcript

# How long `act` waits, at most, for what comes at once where the machine is idle.
SECONDS = str(MOST_SECONDS // 2)


def check_foreign(room):
    """A seat says where somebody else plays for its player, as it does not of what it claimed itself."""
    top = room.top
    match = make(f"{top}/foreign/table", room.port + 30)
    said = ("somebody else plays for you: entry 2 is in your name, and was not chosen here: go on with the --dir that you had, "
            "or find out who has your key file")
    for player, party, status in (("X", 1, 2), ("O", 2, 0)):
        referee = Party(match, 0)
        act = start("act", "--player", player, "--match", f"{top}/foreign/table/match-{player.lower()}", "--dir",
                    f"{top}/foreign-{player}", "--seconds", SECONDS)
        right(referee.hears() == party, f"the seat of {player} does not ask")
        # X begins with 6 and 5, and runs.
        referee.tell(party, match.entry(1, OPENING, 6, 5))
        referee.tell(party, match.entry(2, MOVE, 2, 24, 18, 18, 13))
        _, err = act.communicate(timeout=MOST_SECONDS)
        heard = err.decode().splitlines()
        right(act.returncode == status, f"act of {player} ended with status {act.returncode}: {heard}")
        right(heard == ([f"bg_relay: {said}"] if status else []), f"act of {player} said {heard}")
        referee.close()


def entries_of(folder):
    """How many entries the referee has saved."""
    text = run("show", f"{folder}/party-0.0", f"{folder}/party-0.1").stdout.decode()
    return max(int(line.split(" entries ")[1].split()[0]) for line in text.splitlines() if " entries " in line)


def check_act(room):
    """Actions that are taken and refused, and what a second call prints of the same one."""
    top = room.top
    act = ["act", "--player", "X", "--match", f"{top}/table/match-x", "--dir", f"{top}/x", "--seconds"]
    check("no referee", 1, "", "the time is over", *act, "1")
    told = "bg_relay: `hello` is no action: not a line. `bg_relay act --help` lists the actions\n"
    check("not an action", 2, "", told, *act, "1", "hello")
    referee = start("referee", "--dir", f"{top}/table")
    other = start("auto", "--player", "O", "--match", f"{top}/table/match-o", "--dir", f"{top}/o")
    turn = check("its turn", 0, "X to ", "", *act, SECONDS).stdout.decode()
    wrong = "roll" if "X to move" in turn else "move 8-5"
    why = "the dice are rolled: move them" if wrong == "roll" else "roll the dice first"
    told = f"bg_relay: claim refused: wrong phase\nbg_relay: {why}\n"
    check("a refused action", 2, "", told, *act, SECONDS, *wrong.split())
    entry = 1 + entries_of(f"{top}/table")
    check("the entry behind the next one", 2, "", "is not the next one", *act, SECONDS, "--entry", str(entry + 1),
          "resign", "normal")
    for name in ("an offer", "the same offer"):
        check(name, 0, "X to " if name != "an offer" else "resign", "", *act, SECONDS, "--entry", str(entry), "resign",
              "normal")
        before = len(transcript(f"{top}/x", 1))
        out = check("after it", 0, "X to ", "", *act, SECONDS).stdout.decode()
        news = out.split("length 1 ")[0].splitlines()
        right(news == transcript(f"{top}/table")[before:before + len(news)],
              f"after {name} {before} entries were saved, and `act` printed more than those behind them: {news}")
    check("another action for that entry", 2, "X to ", "is another", *act, SECONDS, "--entry", str(entry), "double")
    check("an entry far ahead", 2, "", "is not the next one", *act, SECONDS, "--entry", "9999", "resign", "normal")
    end(referee, other)
