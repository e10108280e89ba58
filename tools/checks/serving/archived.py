"""Archives of finished matches, as a server gives them."""
import io
import tarfile

from counting import right


def archived(server, query):
    """The files of an archive, by their names."""
    _, headers, text = server.ask("/matches?" + query)
    right(headers["content-type"] == "application/x-tar" and len(text) % 512 == 0, f"{query} is no archive")
    with tarfile.open(fileobj=io.BytesIO(text), mode="r:") as archive:
        right(all(one.isfile() and one.mode == 0o644 for one in archive), f"{query} has what is no plain file")
        return {one.name: archive.extractfile(one).read() for one in archive}


def compare_archives(server, names):
    """Archives have each match once, with what is given of it alone."""
    for form, ending in (("transcript", "txt"), ("mat", "mat")):
        pages = [archived(server, f"list=finished&form={form}&page={page}") for page in range(1, (len(names) + 49) // 50 + 2)]
        right(pages.pop() == {}, "a page behind the last has matches")
        right(all(len(page) == 50 for page in pages[:-1]), "a page before the last is not full")
        files = {name: text for page in pages for name, text in page.items()}
        has_each_once = set(files) == {f"{name}.{ending}" for name in names} and sum(map(len, pages)) == len(names)
        right(has_each_once, f"archived are {set(files)}")
        is_same = all(text == server.ask(f"/matches/{name[:-4]}/{form}")[2] for name, text in files.items())
        right(is_same, f"{form} differs in an archive")
    right(len(archived(server, "list=finished&form=mat&search=X1+AND")) == 1, "an archive of what was searched for")
