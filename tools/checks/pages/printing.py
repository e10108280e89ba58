"""What a headless Chromium prints of a page."""
import shutil
import subprocess
import tempfile

import browsers

# A browser that does not end is begun again: how many seconds it has each time. It needs some ten
# where the machine is idle.
SECONDS = (45, 90, 180, 360, 1200)


def printed(words, begin=lambda: None):
    """What the browser prints that is run with these words, or nothing. Now and then one whose time is virtual does not
    end: then all is begun again, with another profile."""
    for seconds in SECONDS:
        begin()
        profile = tempfile.mkdtemp()
        try:
            flags = ["--headless=new", "--no-sandbox", "--disable-gpu", f"--user-data-dir={profile}"]
            command = [browsers.found(), *flags, *words]
            return subprocess.run(command, capture_output=True, text=True, timeout=seconds, check=False).stdout
        except subprocess.TimeoutExpired:
            pass
        finally:
            shutil.rmtree(profile, ignore_errors=True)
    return ""
