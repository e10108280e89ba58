"""What scripts ask of a server of matches, as docs/SERVING.md says: what is answered, refused and counted."""
import http.client
import os
import re
import time

from counting import right
from parties import MOST_SECONDS
from serving.asking import JSON, bearer, connect, counted, secret_of, state_of
from serving.rolled import told_of_dice
from web_sockets import Socket

ELSEWHERE = {"origin": "http://elsewhere.example"}


def ask_as_scripts(server):
    """What docs/SERVING.md shows of scripts, and what is refused."""
    before, made = counted(server), server.make(length=1)
    name, state = made["match"], state_of(server, made["match"])
    greet(server, made, state)
    answer_messages(server, made)
    seat, other = (made["x"], made["o"]) if state["turn"] == "X" else (made["o"], made["x"])
    act(server, name, seat)
    refuse_requests(server, name, seat)
    refuse_sockets(server)
    ignore_case(server, name, other)
    show_all(server, name)
    compare_colours(server, name)
    compare_counts(server, before, counted(server))
    accept(server, name, other)
    ended = counted(server)["bg_relay_matches_ended_total"] - before["bg_relay_matches_ended_total"]
    right(ended == 1, f"the end of one match is counted as {ended}")
    told = told_of_dice(server, name)
    right(set(told) == {"sha256", "secret"}, f"after the end it told {told} of the dice")
    folder = os.path.join(server.folder, name)
    kept = b"".join(open(os.path.join(folder, file), "rb").read() for file in os.listdir(folder))
    right(not any(secret_of(made[it]).encode() in kept for it in "xo"), "a secret is kept")
    make_again(server)


def greet(server, made, state):
    """What is told of a match that has just begun."""
    name = made["match"]
    right(state["number"] == 1 and "may" not in state, f"{state}")
    told = told_of_dice(server, name)
    right(told == {"sha256": made["dice"]}, f"before the end it told {told} of the dice")
    watcher = Socket(server.port, f"/matches/{name}/live")
    greeting = watcher.message()
    right(greeting["dice"] == made["dice"] and greeting["match"] == name, f"a watcher is greeted by {greeting}")
    watcher.close()


def answer_messages(server, made):
    """What a player and a watcher get for messages that are no actions of a seat."""
    player, watcher = Socket(server.port, "/play/live"), Socket(server.port, f"/matches/{made['match']}/live")
    player.send("hello " + secret_of(made["x"]))
    first = [player.message(), player.message()]
    right(first[0] == {"hello": True} and first[1]["match"] == made["match"], f"a player first gets {first}")
    for one, said, wanted in ((player, "hello " + secret_of(made["x"]), "this is no message"),
                              (player, "act 02 roll", "this is no message"), (watcher, "act 2 roll", "you watch")):
        one.send(said)
        # States and who is there may come first.
        answer = next(message for message in iter(one.message, None) if "no" in message)
        right(answer == {"no": wanted}, f"{said[:11]} came to {answer}")
    player.close()
    watcher.close()


def make_again(server):
    """A request to make a match that is sent again with its key makes no other match; where others can guess that, it does."""
    keys = ["a" * 16, "a" * 16, "short", "short"]
    answers = [server.ask("/matches", b'{"length":1}', {**JSON, "idempotency-key": key}) for key in keys]
    right(all(status == 201 for status, _, _ in answers), f"matches with keys came to {[answer[0] for answer in answers]}")
    texts = [text for _, _, text in answers]
    right(texts[0] == texts[1] and len(set(texts)) == len(texts) - 1, "a repeated key makes another match, or another key the same")


def act(server, name, seat):
    """What the seat on turn comes to by actions."""
    actions, key = f"/matches/{name}/actions", bearer(seat)
    # The opening has rolled the dice of the first turn.
    for action, reason in ((b"roll", b"the dice are rolled: move them"), (b"take", b"nobody has doubled"),
                           (b"accept", b"nobody has offered to resign"), (b"move 1-off", b"[^\"]*1-off[^\"]*")):
        answer = server.ask(actions, b"2 " + action, key)
        is_refused = re.fullmatch(rb'\{"re":2,"no":"not legal","reason":"' + reason + rb'"\}', answer[2])
        right(answer[0] == 200 and is_refused, f"{action} came to {answer}")
    for body, status, words in ((b"2 resign normal", 200, b'{"re":2,"done":true}'),
                                (b"2 resign normal", 200, b'{"re":2,"done":true}'),
                                (b"2 roll", 200, b'{"re":2,"no":"another entry"}'), (b"3 roll", 200, b"not your turn"),
                                (b"3 take", 200, b"no"), (b"3 fly", 200, b'{"re":3,"no":"not a line"}'),
                                (b"3 move 8-9", 200, b'{"re":3,"no":"bad number"}'),
                                (b"3 move 8-7 7-6 6-5 5-4 4-3", 200, b'{"re":3,"no":"too many steps"}'),
                                (b"roll", 400, b"NUMBER WORDS"), (b"\xff 1", 400, b"")):
        answer = server.ask(actions, body, key)
        right(answer[0] == status and words in answer[2], f"{body} came to {answer[0]} {answer[2]}")


def refuse_requests(server, name, seat):
    """Requests that are refused, each by its status."""
    actions, key = f"/matches/{name}/actions", bearer(seat)
    for path, body, headers, status in (
            (actions, b"2 roll", {}, 401), (actions, b"2 roll", {"authorization": "Bearer " + "0" * 32}, 401),
            (actions, b"2 roll", {**key, "origin": "https://elsewhere.example"}, 403), (actions, None, {}, 405),
            ("/matches", b'{"length":3}', {}, 415),
            ("/matches", b'{"length":0}', JSON, 400), ("/matches", b'{"length":100}', JSON, 400),
            ("/matches", b'{"length":3,"rules":3}', JSON, 400), ("/matches", b'{"length":3,"name_x":"Anna"}', JSON, 400),
            ("/matches", b'{"length":3,"x":"a\\nb"}', JSON, 400),
            ("/matches", b"[" * 5000, JSON, 413), ("/matches", b"[" * 3000, JSON, 400), ("/matches", b"\xff", JSON, 400),
            ("/matches", b'{"length":3}', {**JSON, **ELSEWHERE}, 403),
            ("/matches/../secret", None, {}, 404), (f"/matches/{name}/secret", None, {}, 404),
            (f"/matches/{name}/states/99", None, {}, 404), (f"/matches/{name}/states/01", None, {}, 404),
            *((f"/matches?{query}", None, {}, 400) for query in ("list=other", "list=", "page=0", "page=x", "form=zip")),
            ("/matches/none", None, {}, 404), ("/play/live", None, {}, 426)):
        answer = server.ask(path, body, headers)
        right(answer[0] == status, f"{path} {body and body[:20]} came to {answer[0]}")
    for path, body, methods in ((actions, None, "POST"), ("/play", b"", "GET, HEAD")):
        status, headers, _ = server.ask(path, body, {})
        right(status == 405 and headers["allow"] == methods, f"{path} came to {status}, allow {headers['allow']}")
    for path, body, headers, status, said in (
            ("/matches?list=other", None, {}, 400, "list is live, idle or finished, page a number from 1 on, "),
            ("/matches", b"[" * 5000, JSON, 413, "at most 4096 bytes: send a shorter one\n"),
            ("/" + "x" * 9000, None, {}, 414, "the first line of a request has at most 8192 bytes: send a shorter path\n"),
            ("/matches", None, {"host": "a b"}, 400, "this is no valid request of HTTP/1.1: "),
            ("/matches", b"x", {**JSON, "transfer-encoding": "gzip, chunked"}, 501, "send it as it is, or in chunks\n"),
            *(("/matches", b"x", {**JSON, "transfer-encoding": coding}, 400, "this is no valid request of HTTP/1.1: ")
              for coding in ("gzip", "identity", "chunked, gzip")),
            ("/matches", None, {"x": "x" * 9000}, 431, "at most 8192 bytes and 64 headers: send fewer\n"),
            ("/matches", None, {f"x-{number}": "x" for number in range(70)}, 431, "64 headers: send fewer\n")):
        came, found, text = server.ask(path, body, headers)
        right(came == status and said in text.decode() and found["content-type"] == "text/plain; charset=utf-8",
              f"{path} with {len(headers)} headers came to {came} {text}")
    refused = server.ask("/matches", b'{"length":3,"name_x":"Anna"}', JSON)[2].decode()
    right('"name_x"' in refused and all(f'"{key}"' in refused for key in ("length", "rules", "x", "o")),
          f"a wrong key is refused by {refused}")


def refuse_sockets(server):
    """Who asks for a WebSocket over a connection that can't become one is told that the address needs one."""
    needs = (426, b"this address needs a WebSocket\n")
    for minor, header, wanted in (
            (1, "", needs), (1, "Connection: keep-alive\r\n", needs), (1, "Connection: x-upgrade\r\n", needs),
            (0, "", needs), (0, "Connection: upgrade\r\n", needs), (1, "Connection: Upgrade\r\n", (101, b"")),
            (1, "Connection: keep-alive, UPGRADE\r\n", (101, b"")),
            (1, "Connection: keep-alive\r\nConnection: upgrade\r\n", (101, b""))):
        with connect(server) as one:
            one.settimeout(MOST_SECONDS)
            one.sendall(f"GET /play/live HTTP/1.{minor}\r\nHost: a\r\n{header}Upgrade: websocket\r\n"
                        "Sec-WebSocket-Version: 13\r\nSec-WebSocket-Key: AAAAAAAAAAAAAAAAAAAAAA==\r\n\r\n".encode())
            answer = http.client.HTTPResponse(one)
            answer.begin()
            came = (answer.status, answer.read())
        right(came == wanted, f"for a socket HTTP/1.{minor} with {header!r} came to {came}")


def ignore_case(server, name, other):
    """The kind of a body, and the word before a secret, may be written in small or capital letters."""
    for kind, status in (("APPLICATION/JSON", 400), ("Application/Json; charset=utf-8", 400), ("application/json ;x=y", 400),
                         ("application/jsonp", 415), ("text/plain; application/json", 415), ("text/plain", 415)):
        came = server.ask("/matches", b'{"length":0}', {"content-type": kind})[0]
        right(came == status, f"a body of the kind {kind} came to {came}")
    secret = secret_of(other)
    for words, status in (("bearer", 400), ("BEARER", 400), ("Basic", 401), ("Bearerx", 401)):
        came = server.ask(f"/matches/{name}/actions", b"roll", {"authorization": f"{words} {secret}"})[0]
        right(came == status, f"an action by {words} came to {came}")


def show_all(server, name):
    """What is given of a match and of all, and with which headers."""
    for path, kind in (("/", "text/html"), ("/play", "text/html"), (f"/matches/{name}", "text/html"),
                       ("/script.js", "text/javascript"), ("/style.css", "text/css"),
                       (f"/matches/{name}/mat", "text/plain"), (f"/matches/{name}/picture", "image/svg+xml"),
                       (f"/matches/{name}/states/0", "application/json"), ("/health", "text/plain"), ("/metrics", "text/plain")):
        status, headers, text = server.ask(path)
        right(status == 200 and headers["content-type"].startswith(kind) and text,
              f"{path} came to {status} {headers['content-type']}")
        right(headers["x-content-type-options"] == "nosniff" and headers["referrer-policy"] == "no-referrer",
              f"headers of {path}")
        if kind == "text/html":
            policy = headers["content-security-policy"]
            right("script-src 'self'" in policy and "frame-ancestors 'none'" in policy
                  and b"onclick" not in text and b"<script>" not in text, f"policy of {path}")
    policy = server.ask(f"/matches/{name}/embed")[1]["content-security-policy"]
    right("frame-ancestors *" in policy, "the page for frames")


def compare_colours(server, name):
    """X is darker than O in pictures, and on pages, light and dark."""
    for path, form in ((f"/matches/{name}/picture", r"\.%s{fill:#(\w{6})"), ("/style.css", r"--%s: #(\w{6})")):
        text = server.ask(path)[2].decode()
        dark, light = ([sum(bytes.fromhex(shade)) for shade in re.findall(form % player, text)] for player in "xo")
        right(dark and all(x < o for x, o in zip(dark, light)), f"X and O of {path} have the shades {dark} and {light}")


def compare_counts(server, before, after):
    """What is counted behind all this."""
    acted = [after[f'bg_relay_actions_total{{result="{result}"}}'] - before[f'bg_relay_actions_total{{result="{result}"}}']
             for result in ("done", "waits", "refused", "failed")]
    right(acted == [2, 0, 7, 0], f"actions are counted as {acted}")
    right(after["bg_relay_requests_total"] - before["bg_relay_requests_total"] > 20, f"requests are counted as {after}")
    saved = [after[f'bg_relay_saves_total{{result="{result}"}}'] for result in ("done", "failed")]
    # One thread saves, so no more seconds than have passed.
    right(saved[0] >= 3 and saved[1] == 0 and 0 < after["bg_relay_save_seconds_total"] < time.time() - server.began,
          f"saves are counted as {after}")
    right(after['bg_relay_matches{state="live"}'] >= 1 and after["bg_relay_matches_made_total"] >= 1,
          f"matches are counted as {after}")


def accept(server, name, seat):
    """The other seat accepts that the first one resigns, which ends the match."""
    actions = f"/matches/{name}/actions"
    for _ in range(2):
        answer = server.ask(actions, b"3 accept", bearer(seat))
        right(answer[2] == b'{"re":3,"done":true}', f"accepting came to {answer[2]}")
    right(server.ask(actions, b"3 reject", bearer(seat))[2] == b'{"re":3,"no":"another entry"}',
          "another action than that which ended the match is done")
