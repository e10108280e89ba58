"""Pages whose answers are lost, or come late. The server answers; what the page calls to ask is another function."""
from browsing.looking import fits
from counting import right
from serving.asking import names_on

# Loses answers to requests that make matches, once `isLost` holds, and notes their keys.
LOSE_MATCHES = """void (reach = fetch, isLost = true, keys = [], fetch = async (path, request) => {
    const answer = await reach(path, request);
    if (request) keys.push(request.headers['idempotency-key']);
    if (request && isLost) throw new TypeError('lost');
    return answer;
})"""
# Keeps the answer to a search until `release` is called.
KEEP_SEARCH = """void (reach = fetch, held = new Promise(go => release = go), isHeld = false, fetch = async path => {
    const answer = await reach(path);
    if (!/search=NOBODY/.test(path)) return answer;
    const found = await answer.json();
    isHeld = true;
    await held;
    return { ok: true, json: async () => found };
})"""
LOSE_ALL = "void (reach = fetch, fetch = async () => { throw new TypeError('lost'); })"
FIND_AGAIN = "void (fetch = reach)"
# Asks for the transcript twice, and lets the first text come last, with a line less.
OUTRUN_LINES = """(async () => {
    const reach = fetch, lines = game.lines, answers = [], state = { number: lines.length, last: [] };
    const answer = (index, of) => answers[index]({ ok: true, text: async () => ['', ...of].join('\\n') });
    fetch = () => new Promise(go => answers.push(go));
    game.lines = [];
    const asked = [takeLines(state), takeLines(state)];
    answer(1, lines);
    await asked[1];
    answer(0, lines.slice(0, -1));
    await asked[0];
    fetch = reach;
    return game.lines.length === lines.length;
})()"""


def lose_matches(server, browser, size):
    """A match whose answers are all lost is asked for again by the same key, so there is one; the next is another one."""
    page = browser.page(server.url("/"), *size)
    page.wait("document.querySelector('#live').textContent")
    page.run("document.getElementById('x').value = 'Lost'")
    page.run(LOSE_MATCHES)
    page.click("#new button")
    right(page.run("document.querySelector('#new button').disabled"), "two matches can be asked for at once")
    page.wait("document.querySelector('#made [role=alert]').textContent === 'No answer came: try again.'")
    page.run("isLost = false")
    for count in (1, 2):
        page.wait("!document.querySelector('#new button').disabled")
        page.click("#new button")
        page.wait(f"keys.length === {5 + count} && document.querySelectorAll('#made .link a').length === 3")
        right(page.run("new Set(keys).size") == count, f"{count} matches were asked for by other keys")
        right(len(names_on(server, "search=Lost")) == count, f"there are {names_on(server, 'search=Lost')}, and not {count}")
    fits(page, "the first page after lost answers")
    page.close()


def search_out_of_order(page):
    """The answer to an older search that comes after that to a newer one is not shown."""
    page.wait("document.querySelector('#finished table')")
    page.run("document.querySelector('#finished table').id = 'first'")
    page.run(KEEP_SEARCH)
    for words, is_there in (("NOBODY", "isHeld"), ("OTTO VON", "document.querySelector('#finished table:not(#first)')")):
        page.run(f"document.getElementById('search').value = '{words}'")
        page.run("document.getElementById('search').dispatchEvent(new Event('input'))")
        page.wait(is_there)
    page.run("release()")
    right(page.run("!!document.querySelector('#finished table')"), "the answer to an older search is shown")
    page.run(FIND_AGAIN)


def download_in_vain(page):
    """A download whose answer is lost says so, and can be tried again."""
    page.run(LOSE_ALL)
    for said in ("Not downloaded: try again.", "Downloaded."):
        page.click("#finished .downloads button")
        page.wait(f"document.querySelector('#finished .downloads [role=status]').textContent === '{said}'")
        page.run(FIND_AGAIN)


def lose_and_delay(server, browser, size):
    lose_matches(server, browser, size)
    page = browser.page(server.url("/"), *size)
    search_out_of_order(page)
    download_in_vain(page)
    fits(page, "the first page after a lost download")
    page.close()


def outrun_lines(page):
    """A text of the transcript that comes after a newer one takes no lines away."""
    right(page.run(OUTRUN_LINES), "an older text of the transcript takes lines away")
