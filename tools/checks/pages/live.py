"""A live page in Chromium, whose server is away for some time, or stays away."""
import http.server
import re
import threading

from pages.printing import printed


class Away(http.server.BaseHTTPRequestHandler):
    """A web server that has a live page, is then away for some requests, and has a newer page after these, if ever."""

    pages, away, asked = (b"", b""), 0, 0

    def do_GET(self):
        own = type(self)
        if self.path != "/match.html":
            self.send_error(404)
            return
        own.asked += 1
        if 1 < own.asked <= 1 + own.away:
            self.connection.close()
            return
        text = own.pages[own.asked > 1]
        self.send_response(200)
        self.send_header("Content-Type", "text/html")
        self.send_header("Content-Length", str(len(text)))
        self.end_headers()
        self.wfile.write(text)

    def log_message(self, format, *args):
        pass


def live(old, new, away):
    """What a browser has of a live page after a minute and a half, of a server that was away for so many requests."""
    body = "<body data-numbering='mover'>"
    pages = [text.replace(body, body[:-1] + " data-seconds='5'>").encode() for text in (old, new)]
    handler = type("Handler", (Away,), {"pages": pages, "away": away})
    with http.server.ThreadingHTTPServer(("127.0.0.1", 0), handler) as server:
        threading.Thread(target=server.serve_forever, daemon=True).start()
        words = ["--dump-dom", "--virtual-time-budget=90000", f"http://127.0.0.1:{server.server_port}/match.html"]
        dom = printed(words, lambda: setattr(handler, "asked", 0))
        server.shutdown()
    return dom, handler.asked


def wrong_when_live(old, new):
    """What is wrong with a live page whose server is away for some seconds, or stays away."""
    wrong = []
    label = re.compile(r"<p id=.label.[^>]*>([^<]*)<")
    last = re.findall(r"<a href='#p\d+'>([^<]*)<", new)[-1]
    dom, asked = live(old, new, 3)
    if asked < 8:
        wrong.append(f"a newer page is asked for {asked} times in 90 seconds")
    if not label.search(dom) or not label.search(dom)[1].endswith(last):
        wrong.append("the newer page is not shown after its server was away")
    if "<p id=\"age\">as of " not in dom:
        wrong.append("the newer page does not say when it came")
    dom, asked = live(old, new, 1000)
    if "<p id=\"age\">nothing came since " not in dom or 'class="late"' not in dom:
        wrong.append("a page whose server stays away is not marked")
    if "<li id=" not in dom:
        wrong.append("a page whose server stays away is lost")
    return wrong
