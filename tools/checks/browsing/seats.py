"""Pages of players who lose their seats while they look at them, and of watchers; and what keys of the keyboard do there."""
from browsing.looking import fits, stopped, wait_live
from counting import right
from serving.asking import state_of
from serving.operators import manage

NO_SEAT = ("This link is no seat of a match here any more.", "no such seat")
NO_MATCH = ("This match is not here any more.", "no such match")
# Notes when the page opens a socket.
NOTE_SOCKETS = """void (times = [], WebSocket = class extends WebSocket {
    constructor(address) { super(address); times.push(performance.now()); }
})"""


def lose_seats(server, browser, size):
    """A page whose link is replaced, and a player's and a watcher's whose match is deleted, ask some times more and then say
    that they have no seat, or no match."""
    pages = {}
    for link, told, change in (("x", NO_SEAT, ("--new-link", "X")), ("x", NO_SEAT, ("--delete",)),
                               ("watch", NO_MATCH, ("--delete",))):
        made = server.make(length=1)
        page = pages[change, told] = browser.page(server.url(made[link]), *size)
        wait_live(page)
        page.run(NOTE_SOCKETS)
        right(manage(server, "--match", made["match"], *change)[0] == 0, f"manage {change}")
    for (change, (said, short)), page in pages.items():
        page.wait(f"document.getElementById('say').textContent === '{said}'")
        page.wait(f"document.getElementById('net').textContent === '{short}'")
        pauses = page.run("times.slice(1).map((time, index) => time - times[index])")
        right(len(pauses) == 5 and min(pauses) > 1900, f"after {change} a page asks again after {pauses} ms")
        right(not page.run("!!document.querySelector('#acts button')"), f"after {change} a page lets one act")
        fits(page, f"a page after {change}")
        page.close()


def press_keys(server, browser, size):
    """U takes steps back, but none that were sent; R rolls, but not where an earlier position or a question is shown."""
    made = server.make(length=3)
    for number, act in ((2, undo_steps), (3, roll_when_live)):
        page = browser.page(server.url(made[state_of(server, made["match"])["turn"].lower()]), *size)
        wait_live(page)
        act(server, page)
        page.wait(f"game.state.number === {number}")
        fits(page, f"the page of one who has made entry {number}")
        page.close()


def move_one(page):
    """Moves a checker by clicks."""
    page.click(".field.source")
    page.click(".field.target")


def undo_steps(server, page):
    """Takes back a step, and then plays a turn, which U leaves."""
    move_one(page)
    right(page.run("game.steps.length") > 0, "a click moves no checker")
    page.press("u")
    right(page.run("game.steps.length") == 0, "U takes nothing back")
    while not page.run("!!document.querySelector('#acts button.main')"):
        move_one(page)
    steps = page.run("game.steps.length")
    with stopped(server):
        page.click("#acts button.main")
        page.press("u")
        right(page.run("game.open && game.steps.length") == steps, "U takes back steps that were sent")


def roll_when_live(server, page):
    """Rolls by R, which does nothing before."""
    page.click("#back")
    page.wait("game.earlier")
    with stopped(server):
        page.press("r")
        right(not page.run("game.open"), "R rolls while an earlier position is shown")
        page.run("game.open = null")
        page.press("End")
        page.click("#acts button.quiet")
        page.press("r")
        right(not page.run("game.open"), "R rolls while a question is asked")
        page.run("game.open = null")
        page.click("#ask button.quiet")
        page.press("r")
        right(page.run("game.open && game.open.words") == "roll", "R does not roll")
