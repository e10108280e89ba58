"""Players at terminals who go away and come back, a referee who does, and a process that is refused memory."""
import os
import re
import select
import shutil
import subprocess
import time

from people import MOST_SECONDS
from program import PROGRAM
from terminals.kinds import HERE

# The growth of memory that is refused to a process, as it begins or shows its first board.
REFUSED_GROWTH = "60"
# What is said while the referee is away, to its last word.
SILENT = r"^no word from the referee for three\s+seconds:[^`]*?heard\s+again\n"
# The start of what is said below the board where a choice waits for the referee.
WAITS = "your choice, "


def sees(person, pattern):
    """Waits until a player who has nothing to type sees this."""
    until = time.time() + MOST_SECONDS
    while not re.search(pattern, person.screen[person.seen:], re.M):
        if time.time() > until:
            person.wrong.append(f"{person.player} never saw {pattern}: {person.screen[-300:]}")
            return
        if select.select([person.terminal], [], [], 0.1)[0]:
            person.read()


def go_away(table, person):
    """Lets a player or the referee go away where they are to, and come back."""
    key = (person.player, len(person.typed_turns))
    how = table.goings.get(key)
    if how is None or how != "killed behind a turn" and not person.is_asked():
        return
    if how == "no referee" and not person.may_roll():
        return
    del table.goings[key]
    if how == "killed behind a turn":
        person.kill()
        person.start()
    elif how == "away":
        be_away(person, table.other(person))
    elif how == "no referee":
        be_without_referee(table, person)
    elif how == "no memory":
        be_without_memory(person, table.top)
    else:
        person.leave(how)


def be_away(person, other):
    """Kills a player's terminal, who stays away until the other one is told so, and comes back with fewer columns."""
    person.kill()
    sees(other, rf"^{person.player} is away:\s+nothing was heard")
    other.type("roll")
    sees(other, rf"^it is {person.player}'s turn$")
    person.size = (40, 24)
    person.start()
    sees(other, rf"^{person.player} is back$")


def be_without_referee(table, person):
    """Kills the referee while a player is on turn: both are told, with whose turn it is below. What that player types is
    kept, and sent when the referee is heard again."""
    table.referee.kill()
    table.referee.wait()
    sees(table.other(person), rf"{SILENT}it is {person.player}'s turn$")
    sees(person, rf"{SILENT}your turn, {person.player}: ")
    person.type("r")
    sees(person, r"^your choice is kept, and sent when the referee is heard\s+again$")
    person.type("roll")
    sees(person, rf"^{WAITS}roll, is kept, and\s+waits for the\s+referee$")
    table.referee = subprocess.Popen(table.referee.args)
    for each in table.people:
        sees(each, rf"^the referee is heard again\n(?:.|\n)*^{person.player} roll")


def be_without_memory(person, top):
    """Lets a player come back whose process is refused memory."""
    variables = refusing(top)
    if variables:
        person.be_refused(variables)


def refusing(top):
    """The variables by which a process is refused memory: to a program that `tools/compile_program` made by those of its
    allocator, and else by what is preloaded; none where there is no compiler for that."""
    with open(PROGRAM, "rb") as file:
        if b"__asan_init" in file.read():
            return {"ASAN_OPTIONS": "soft_rss_limit_mb=1:allocator_may_return_null=1"}
    compiler = shutil.which(os.environ.get("CC", "cc"))
    if not compiler:
        print("no memory was refused: there is no compiler")
        return None
    made = f"{top}/refuse_growth.so"
    subprocess.run([compiler, "-shared", "-fPIC", "-O1", "-o", made, f"{HERE}/refuse_growth.c", "-ldl"], check=True)
    return {"LD_PRELOAD": made, "REFUSE_GROWTH": REFUSED_GROWTH, "REFUSED_FILE": f"{top}/refused"}
