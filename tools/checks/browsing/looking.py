"""What checks of pages wait for, what must hold of each page, and a server that is stopped."""
import contextlib
import signal

from counting import right


def wait_live(page):
    page.wait("document.getElementById('net').textContent === 'live' && document.querySelector('.board')")


def fits(page, what):
    right(page.run("document.documentElement.scrollWidth <= window.innerWidth"), f"{what} is wider than the window")
    right(not page.faults, f"{what} complains: {page.faults}")


@contextlib.contextmanager
def stopped(server):
    """Stops a server meanwhile, so that it answers no action."""
    server.process.send_signal(signal.SIGSTOP)
    try:
        yield
    finally:
        server.process.send_signal(signal.SIGCONT)
