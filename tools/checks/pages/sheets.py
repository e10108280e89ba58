"""Sheets of pages in Chromium, each in a frame, where a script looks at its texts and tells what is wrong with them."""
import html
import json
import pathlib
import re
import xml.etree.ElementTree

from pages.cases import PICTURES
from pages.printing import printed

HERE = pathlib.Path(__file__).parent
# What a sheet does: it keeps what its pages tell.
LISTEN = (HERE / "listening.html").read_text()
# What a page tells of its texts: those that overlap, that leave their box, and whether it is wider than its frame. The
# numbers of the points come through a use, whose texts no script sees: they are measured as a copy, which is removed.
CHECK = (HERE / "checking.html").read_text()


def chromium(page, size, scheme, *flags):
    """What the browser prints of a page."""
    words = ["--hide-scrollbars", f"--window-size={size[0]},{size[1]}"]
    words += [f"--blink-settings=preferredColorScheme={int(scheme == 'light')}"]
    return printed([*words, "--virtual-time-budget=3000", *flags, page.as_uri()])


def sheet(pages, folder, width, scheme):
    """Draws pages on one sheet, each in a frame of this width, and gives what each of them tells of its texts."""
    height, columns = {320: (700, 6), 390: (844, 5), 800: (780, 3), 1280: (900, 2)}[width]
    frames = "".join(f"<iframe src='{name}.html#end' width='{width}' height='{height}'></iframe>\n" for name in pages)
    size = columns * (width + 12), -(-len(pages) // columns) * (height + 12) + 40
    page = folder / f"sheet.{width}.{scheme}.html"
    style = "<style>body{margin:0;background:#888}iframe{border:0;margin:3px}</style>"
    page.write_text(f"<!DOCTYPE html>{style}\n{LISTEN}{frames}")
    picture = page.with_suffix(".png")
    picture.unlink(missing_ok=True)
    dump = chromium(page, size, scheme, "--dump-dom", f"--screenshot={picture}")
    page.unlink()
    told = dict(json.loads(html.unescape(it)) for it in re.findall(r"<pre[^>]*>(.*?)</pre>", dump, re.S))
    wrong = {name: told.get(name, ["tells nothing"]) for name in pages}
    if not picture.is_file():
        wrong["the sheet"] = ["is not drawn"]
    return wrong


def pages_of(name, text):
    """The pages to see of a picture or a page."""
    if name in PICTURES:
        xml.etree.ElementTree.fromstring(text)
        return {name: f"<!DOCTYPE html><style>body{{margin:0}}</style>{text}"}
    text, *pictures = text.split("<!-- picture -->\n")
    pictures = [picture.split("\n", 1) for picture in pictures]
    is_long = text.count("<li") > 30 or name.startswith("index")
    without = re.sub(r"<script>.*?</script>", "", text, flags=re.S)
    plain = {} if is_long else {f"{name}.plain": without}
    return {name: f"{text}<script>window.pictures = {json.dumps(pictures)};</script>"} | plain
