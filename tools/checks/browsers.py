"""Chromium without a screen, for checks: pages that are opened, clicked and looked at, by its DevTools protocol."""
import base64
import json
import os
import shutil
import subprocess
import tempfile
import time
import urllib.request

from web_sockets import Socket

NAMES = ("chromium", "chromium-browser", "google-chrome")
# For so long a state is waited for that comes at once where the machine is idle.
MOST_SECONDS = 120


def found():
    """The path of a Chromium; None where there is none."""
    return next((path for path in map(shutil.which, NAMES) if path), None)


class Fault(Exception):
    """What a page did not come to, or an error of its script."""


class Browser:
    """A Chromium that is begun with a profile of its own, and ended with it."""

    def __init__(self):
        self.profile = tempfile.mkdtemp()
        words = [found(), "--headless=new", "--no-sandbox", "--disable-gpu", "--disable-dev-shm-usage", "--no-first-run",
                 "--disable-background-networking", "--hide-scrollbars", "--remote-debugging-port=0",
                 f"--user-data-dir={self.profile}", "about:blank"]
        self.process = subprocess.Popen(words, stdout=subprocess.DEVNULL, stderr=subprocess.DEVNULL)
        self.port = self.port_of()

    def port_of(self):
        path = os.path.join(self.profile, "DevToolsActivePort")
        for _ in range(3000):
            if os.path.exists(path):
                with open(path) as file:
                    lines = file.read().split("\n")
                if len(lines) > 1:
                    return int(lines[0])
            if self.process.poll() is not None:
                raise Fault("Chromium has ended")
            time.sleep(0.1)
        raise Fault("Chromium does not answer")

    def page(self, url, width, height, is_dark=False):
        """Opens a page in a tab of its own."""
        request = urllib.request.Request(f"http://127.0.0.1:{self.port}/json/new?about:blank", method="PUT")
        with urllib.request.urlopen(request, timeout=MOST_SECONDS) as answer:
            found_at = json.load(answer)["webSocketDebuggerUrl"]
        page = Page(self.port, found_at[found_at.index("/devtools"):])
        page.look(width, height, is_dark)
        page.call("Page.navigate", url=url)
        return page

    def close(self):
        self.process.terminate()
        try:
            self.process.wait(60)
        except subprocess.TimeoutExpired:
            self.process.kill()
            self.process.wait()
        shutil.rmtree(self.profile, ignore_errors=True)


class Page:
    """A tab. `faults` has what its script or its policy complained of."""

    def __init__(self, port, path):
        self.link = Socket(port, path, timeout=MOST_SECONDS)
        self.number, self.faults = 0, []
        for domain in ("Page", "Runtime", "Log"):
            self.call(domain + ".enable")

    def call(self, method, **params):
        """Calls the browser, and returns what it answers."""
        self.number += 1
        number = self.number
        self.link.send(json.dumps({"id": number, "method": method, "params": params}))
        while True:
            message = self.link.message()
            if message.get("id") == number:
                if "error" in message:
                    raise Fault(f"{method}: {message['error']}")
                return message["result"]
            self.note(message)

    def note(self, message):
        if message.get("method") == "Runtime.exceptionThrown":
            details = message["params"]["exceptionDetails"]
            self.faults.append(details.get("exception", {}).get("description") or details["text"])
        elif message.get("method") == "Log.entryAdded":
            entry = message["params"]["entry"]
            if entry["level"] == "error" and entry["source"] != "network":
                self.faults.append(entry["text"])

    def look(self, width, height, is_dark=False):
        """Gives the tab a size, as that of a phone where it is narrow, and a light or a dark style."""
        self.call("Emulation.setDeviceMetricsOverride", width=width, height=height, deviceScaleFactor=1, mobile=width < 600)
        style = "dark" if is_dark else "light"
        self.call("Emulation.setEmulatedMedia", features=[{"name": "prefers-color-scheme", "value": style}])

    def run(self, script):
        """The value of an expression of the page."""
        answer = self.call("Runtime.evaluate", expression=script, returnByValue=True, awaitPromise=True)
        if "exceptionDetails" in answer:
            raise Fault(f"{script}: {answer['exceptionDetails']}")
        return answer["result"].get("value")

    def wait(self, script, seconds=MOST_SECONDS):
        """Waits until an expression is true; it may speak of what is not there yet."""
        end = time.time() + seconds
        while time.time() < end:
            if self.run(f"(() => {{ try {{ return !!({script}); }} catch (missing) {{ return false; }} }})()"):
                return
            time.sleep(0.05)
        raise Fault(f"it did not come to this in {seconds} seconds: {script}")

    def click(self, selector):
        """Clicks the middle of the first element that a selector finds, as a finger or a mouse does."""
        place = self.run(f"""(() => {{
            const found = document.querySelector({json.dumps(selector)});
            if (!found) return null;
            found.scrollIntoView({{ block: 'nearest' }});
            const box = found.getBoundingClientRect();
            return [box.x + box.width / 2, box.y + box.height / 2];
        }})()""")
        if place is None:
            raise Fault(f"there is nothing to click: {selector}")
        for kind in ("mouseMoved", "mousePressed", "mouseReleased"):
            self.call("Input.dispatchMouseEvent", type=kind, x=place[0], y=place[1], button="left", clickCount=1)

    def press(self, key):
        """Presses a key of the keyboard, and lets it go."""
        for kind in ("keyDown", "keyUp"):
            self.call("Input.dispatchKeyEvent", type=kind, key=key)

    def picture(self, path):
        """Writes what the tab shows to a PNG file."""
        with open(path, "wb") as file:
            file.write(base64.b64decode(self.call("Page.captureScreenshot", format="png")["data"]))

    def close(self):
        self.call("Page.close")
        self.link.close()
