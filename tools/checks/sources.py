"""What the sources of the crates have, for the tools that compare the documents with them: definitions with their
lines, and public items with their contracts."""
import pathlib
import re

TOP = pathlib.Path(__file__).resolve().parents[2]
CRATES = re.findall(r"^bg_\w+", (TOP / "crates.txt").read_text(), re.M)
IMPORT = re.compile(r"\buse Rattle\.(bg_\w+)\.specs\.([\w.]+)\.\{([^}]*)\}")
# A type of the code by another name, which stands before a dot, as `packet` in `packet.Want`.
RENAMED = re.compile(r"^use Rattle\.(bg_\w+)\.specs\.(declared\.[\w.]+) as (\w+)$", re.M)
# A definition stands at the margin, or two blanks behind it, where several share their parameters.
DEFINITION = re.compile(r"(?:  )?(?:pub )?(?:abbrev|unfoldable|record|data) (?:pub )?([^\W\d]\w*|◌\S+)(?!\S)")


def imported(text):
    """What the words that a text imports stand for."""
    for crate, module, names in IMPORT.findall(text):
        for name in names.split(","):
            first, _, second = name.strip().partition(" as ")
            yield second or first, f"{crate}/{module.replace('.', '/')}/{first}"


class Definitions:
    """All definitions, each named 'crate/file/name'."""

    def __init__(self):
        self.lines = {}  # of each definition, with the comments above it
        self.words = {}  # of each file: what its words stand for
        for crate in CRATES:
            specs = TOP / "crates" / crate / "specs"
            for path in sorted(specs.rglob("*.antt")):
                self.read(f"{crate}/{path.relative_to(specs).with_suffix('')}", path.read_text())

    def read(self, file, text):
        definition, comments = None, []
        here = self.words[file] = dict(imported(text))
        for crate, module, name in RENAMED.findall(text):
            here[f"{name}."] = f"{crate}/{module.replace('.', '/')}/{name}"
        for line in text.splitlines():
            if line.lstrip().startswith("--"):
                comments.append(line)
                continue
            if head := DEFINITION.match(line):
                definition = f"{file}/{head[1]}"
                here[head[1]] = definition
                self.lines[definition] = []
            if line and definition and not line.startswith(("use ", "module ")):
                self.lines[definition] += [*comments, line]
            comments = []

    def named(self, definition):
        """What the words of this definition stand for."""
        here = self.words[definition.rsplit("/", 1)[0]]
        body = "\n".join(line for line in self.lines[definition] if not line.lstrip().startswith("--"))
        words = re.findall(r"\w+(?:\.(?=\w))?", body)
        return [here[one] for word in words for one in dict.fromkeys((word, word.rstrip("."))) if one in here]

    def reach(self, definition, reached, closed=()):
        """Adds this definition to those that are reached, behind those that it rests on; but none of
        the closed ones, and what only these rest on."""
        if definition in reached or definition not in self.lines or definition in closed:
            return
        reached.setdefault(definition)
        for other in self.named(definition):
            self.reach(other, reached, closed)
        reached[definition] = reached.pop(definition)


def declared(name):
    """A type of the code that definitions name so: its file, and its declaration with the comments
    above it. Nothing for any other name."""
    if kind := re.match(r"(bg_\w+)/declared/([a-z_/\d]+)/([A-Z]\w*)/", name):
        file = f"{kind[1]}/src/{kind[2]}.rt"
        text = (TOP / "crates" / file).read_text()
        head = rf"(?:///.*\n|#\[.*\n)*pub(?:\(crate\))? (?:struct|enum|trait) {kind[3]}\b"
        if item := re.search(rf"^{head}(?:.*;|(?:.*\n)+?\}})", text, re.M):
            return file, re.sub(r"^#\[.*\n", "", item[0], flags=re.M)


def exported(crate):
    """The names that a library hands out, to C too; of the program, those that its files share."""
    root = TOP / "crates" / crate / "src"
    if (root / "lib.rt").exists():
        for names in re.findall(r"^pub use [\w:]+::(\w+|\{[^}]*\});", (root / "lib.rt").read_text(), re.M):
            yield from re.findall(r"\w+", names)
        for path in sources(crate):
            yield from re.findall(r'^pub extern "C" fn (\w+)', path.read_text(), re.M)
    else:
        for path in sources(crate):
            yield from re.findall(r"^pub(?:\(crate\))? (?:fn|struct|enum|trait) (\w+)", path.read_text(), re.M)


def sources(crate):
    """The files of a crate's code, without its tests."""
    for path in sorted((TOP / "crates" / crate / "src").rglob("*.rt")):
        if "test" not in str(path.relative_to(TOP / "crates" / crate)):
            yield path


def contracts(crate):
    """Each public item of a crate, as 'Type::method', 'function' or 'Type', with its contract or declaration, and the
    text of its file."""
    names = set(exported(crate))
    is_program = (TOP / "crates" / crate / "src/main.rt").exists()
    for path in sources(crate):
        text = path.read_text()
        # Items begin at the margin, where braces and brackets that go on with one stand too.
        indented = re.sub(r"\n([{})])", r"\n \1", text)
        if is_program:
            indented = indented.replace("pub(crate) ", "pub ")
        for item in re.findall(r"^(?:pub |impl).*?(?=^\S|\Z)", indented, re.M | re.S):
            head = item.split("\n")[0]
            if function := re.match(r'pub (?:extern "C" )?fn (\w+)', head):
                if function[1] in names:
                    yield function[1], item.split("\n {\n")[0], text
            elif kind := re.match(r"pub (struct|enum|trait) (\w+)", head):
                if kind[2] in names:
                    yield kind[2], item, text
                    yield from methods(kind[2], "fn", item, text)
            elif kind := re.match(r"impl(?:<.*?>)? ([\w:]+(?:<.*?>)? for )?(\w+)", head):
                if kind[2] in names:
                    if kind[1]:
                        yield kind[2], item, text
                    yield from methods(kind[2], "fn" if kind[1] else "pub fn", item, text)


def methods(kind, keyword, item, text):
    """The methods of an item, each up to its body, or to the next thing at its margin."""
    for name, contract in re.findall(rf"^    {keyword} (\w+)(.*?(?:\{{|;)$.*?)(?=^    \S|\Z)", item, re.M | re.S):
        yield f"{kind}::{name}", contract, text


def labels(contract):
    return re.findall(r"\b(?:ensures|requires) (\w+) \{", contract)
