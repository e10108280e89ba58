"""The help texts of the program as data: manual pages and completions are made of them, so that nothing of what a
command or an option does is written twice. A text is what `bg_relay --help` and `bg_relay COMMAND --help` print; what
is not laid out as these are is an error that names its line."""
import dataclasses
import pathlib
import re
import subprocess

PROGRAM = "bg_relay"
HEADS = ("Commands:", "Arguments:", "Options:")
COMMAND = re.compile(r"  (?P<name>[\w-]+)  +(?P<about>\S.*)")
ARGUMENT = re.compile(r"  (?P<open>[<\[])(?P<name>\w+)[>\]](?P<more>\.\.\.)?(?:  +(?P<about>\S.*))?")
OPTION = re.compile(r"  (?:(?P<short>-\w), |    )(?P<name>--[\w-]+)(?: <(?P<value>\w+)>)?(?:  +(?P<about>\S.*))?")
NOTE = re.compile(r"\[(default|possible values): (.*)\]")
# A text that says at its beginning which two values there are, as 'The rules: 1, or 2, by which ..'.
TWO_VALUES = re.compile(r"[^:]*: (\w+),? or (\w+)\b")


class HelpError(Exception):
    """A help text that is not laid out as those of the program are."""


@dataclasses.dataclass
class Item:
    """An argument or an option."""

    name: str  # as it is typed, `--rules`; of an argument, what help calls it
    short: str = ""
    value: str = ""  # what help calls its value; of an argument, its name
    is_needed: bool = False  # of an argument
    is_many: bool = False
    about: str = ""
    default: str = ""
    values: tuple = ()  # where only these are taken

    def takes(self):
        """What its value is: 'values', 'folder', 'file', 'text', or '' where it has none."""
        if self.values:
            return "values"
        if self.value == "DIR":
            return "folder"
        if re.fullmatch(r"FILE\d?|LIST|TRANSCRIPT", self.value):
            return "file"
        return "text" if self.value else ""

    def note(self, name, text, where):
        if name == "default":
            self.default = text.strip('"')
        else:
            self.values = tuple(text.split(", "))
        if not text:
            raise HelpError(f"{where}: nothing stands behind '{name}'")


@dataclasses.dataclass
class Help:
    """The help of the program, whose command is '', or of one of its commands."""

    command: str
    about: list  # lines
    usage: str = ""
    commands: dict = dataclasses.field(default_factory=dict)  # what help says of each in a line
    arguments: list = dataclasses.field(default_factory=list)
    options: list = dataclasses.field(default_factory=list)
    after: list = dataclasses.field(default_factory=list)


def trimmed(lines):
    """The lines without those at both ends that are empty."""
    text = "\n".join(lines)
    return text.strip("\n").split("\n") if text.strip() else []


class Reader:
    """Reads the lines below 'Usage'."""

    def __init__(self, found, name):
        self.found, self.name = found, name
        self.head = self.item = None

    def start(self, line, where):
        """Takes the first line of a command, an argument or an option."""
        form = {"Commands:": COMMAND, "Arguments:": ARGUMENT, "Options:": OPTION}[self.head]
        has = form.fullmatch(line)
        if not has:
            raise HelpError(f"{where}: under '{self.head}' this is none: '{line}'")
        if form is COMMAND:
            self.found.commands[has["name"]] = has["about"]
        elif form is ARGUMENT:
            self.item = Item(has["name"], value=has["name"], is_needed=has["open"] == "<", is_many=bool(has["more"]))
            self.found.arguments.append(self.item)
        else:
            self.item = Item(has["name"], has["short"] or "", has["value"] or "")
            self.found.options.append(self.item)
        if self.item and has["about"]:
            self.item.about = has["about"]

    def say(self, text, where):
        """Takes a line of what is said of an argument or an option."""
        if not self.item:
            raise HelpError(f"{where}: this stands below nothing: '{text}'")
        if note := NOTE.fullmatch(text):
            self.item.note(note[1], note[2], where)
        else:
            self.item.about = f"{self.item.about} {text}".strip()

    def take(self, line, where):
        """Takes a line; false where what comes behind the options begins with it."""
        if line in HEADS:
            self.head, self.item = line, None
        elif line.startswith(" " * 10):
            self.say(line.strip(), where)
        elif line.startswith("  ") and self.head:
            self.start(line, where)
        elif line:
            return False
        return True


def parsed(text, command=""):
    """Returns the help of a command as data.

    Fails where the text is not laid out as the program's are."""
    name = command or PROGRAM
    lines = [line.rstrip() for line in text.split("\n")]
    usages = [at for at, line in enumerate(lines) if line.startswith("Usage: ")]
    if len(usages) != 1:
        raise HelpError(f"the help of {name} has {len(usages)} lines that begin with 'Usage: '")
    found = Help(command, trimmed(lines[: usages[0]]), lines[usages[0]].removeprefix("Usage: "))
    if not found.about:
        raise HelpError(f"the help of {name} says nothing of what it is")
    wanted = f"{PROGRAM} {command}".strip()
    if found.usage.split()[: len(wanted.split())] != wanted.split():
        raise HelpError(f"the help of {name} has another usage: '{found.usage}'")
    reader = Reader(found, name)
    for at in range(usages[0] + 1, len(lines)):
        if not reader.take(lines[at], f"the help of {name}, line {at + 1}"):
            found.after = trimmed(lines[at:])
            break
    check(found, name)
    return found


def check(found, name):
    """Asks that nothing is missing, and takes values out of texts that say them."""
    if not any(option.name == "--help" for option in found.options):
        raise HelpError(f"the help of {name} has no option --help")
    for item in [*found.arguments, *found.options]:
        if not item.about:
            raise HelpError(f"the help of {name} says nothing of {item.name}")
        two = TWO_VALUES.match(item.about)
        if item.value and not item.values and two:
            item.values = (two[1], two[2])


def read_folder(folder):
    """Returns the help of the program and of each of its commands, of the texts that `write_folder` wrote."""
    folder = pathlib.Path(folder)
    program = parsed((folder / f"{PROGRAM}.txt").read_text(encoding="utf-8"))
    commands = [name for name in program.commands if name != "help"]
    if not commands:
        raise HelpError(f"the help of {PROGRAM} has no commands")
    return program, [parsed((folder / f"{name}.txt").read_text(encoding="utf-8"), name) for name in commands]


def asked(program, *words):
    """What a program prints of its help."""
    done = subprocess.run([program, *words], stdin=subprocess.DEVNULL, capture_output=True, text=True, check=False)
    if done.returncode:
        raise HelpError(f"{program} {' '.join(words)} ended with status {done.returncode}: {done.stderr}")
    return done.stdout


def write_folder(program, folder):
    """Writes what a program prints of its help: bg_relay.txt, and NAME.txt for each command."""
    folder = pathlib.Path(folder)
    folder.mkdir(parents=True, exist_ok=True)
    text = asked(program, "--help")
    (folder / f"{PROGRAM}.txt").write_text(text, encoding="utf-8")
    for name in parsed(text).commands:
        if name != "help":
            (folder / f"{name}.txt").write_text(asked(program, name, "--help"), encoding="utf-8")
