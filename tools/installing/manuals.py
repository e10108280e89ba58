"""Manual pages, in section 1, of help texts: one of the program, and one of each command."""
import re

from help_texts import PROGRAM

# Marks that the formatter would print as others.
AS_THEY_ARE = str.maketrans({"\\": "\\e", "-": "\\-", "'": "\\(aq", "`": "\\(ga", "^": "\\(ha", "~": "\\(ti"})


def escaped(text):
    """The text as one that the formatter prints as it is."""
    return re.sub(r"^\.", r"\\&.", text.translate(AS_THEY_ARE))


def blocks(lines):
    """The runs of lines between empty ones."""
    block = []
    for line in [*lines, ""]:
        if line:
            block.append(line)
        elif block:
            yield block
            block = []


def prose(lines):
    """Paragraphs. What is set in by four blanks stays as it is, and what is alone in its line ends there."""
    for block in blocks(lines):
        if all(line.startswith("    ") for line in block):
            yield from (".PP", ".RS 4", ".nf", *(escaped(line[4:]) for line in block), ".fi", ".RE")
        else:
            yield from (".PP", *map(escaped, block))


def section(name, lines):
    """A section; a paragraph that would be its first is none, as the heading begins one."""
    lines = list(lines)
    return [f".SH {name}", *(lines[1:] if lines[:1] == [".PP"] else lines)] if lines else []


def item(found):
    """An argument or an option, with what is said of it."""
    names = " , ".join(f"\\fB{escaped(name)}\\fR" for name in (found.short, found.name) if name and name[0] == "-")
    value = f"\\fI{escaped(found.value)}\\fR" if found.value else ""
    if found.is_many:
        value += " ..."
    notes = [f"Left out, it counts as {found.default}."] if found.default else []
    notes += [f"One of {', '.join(found.values)}."] if found.values else []
    about = escaped(re.sub(r"([^.])$", r"\1.", found.about))
    yield from (".TP", f"{names} {value}".strip().replace(" , ", ", "), about, *map(escaped, notes))


def synopsis(usage):
    """The usage with its words in bold, and what stands for something in italics."""
    words = []
    for word in usage.split():
        plain = re.fullmatch(r"[\w-]+", word)
        words.append(f"\\fB{escaped(word)}\\fR" if plain else re.sub(r"(\w+)", r"\\fI\1\\fR", escaped(word)))
    return [" ".join(words)]


def listed(command, about):
    """A command in the page of the program; the command help has no page."""
    page = f"; see \\fB{escaped(page_name(command))}\\fR(1)" if command != "help" else ""
    return ".TP", f"\\fB{escaped(command)}\\fR", f"{escaped(about)}{page}."


def page_name(command):
    return f"{PROGRAM}-{command}" if command else PROGRAM


def page(found, program, version):
    """Returns the manual page of a help text; what a command is in a line stands in the help of the program."""
    name = page_name(found.command)
    about = program.commands[found.command] if found.command else found.about[0]
    others = [page_name(other) for other in ["", *program.commands] if other not in (found.command, "help")]
    lines = [f'.TH "{escaped(name.upper())}" 1 "" "{PROGRAM} {version}" "{PROGRAM}"', ".nh"]
    lines += section("NAME", [f"{escaped(name)} \\- {escaped(about)}"])
    lines += section("SYNOPSIS", synopsis(found.usage))
    lines += section("DESCRIPTION", prose(found.about))
    lines += section("COMMANDS", [text for other in found.commands for text in listed(other, found.commands[other])])
    lines += section("ARGUMENTS", [text for one in found.arguments for text in item(one)])
    lines += section("OPTIONS", [text for one in found.options for text in item(one)])
    lines += section("EXAMPLE", prose(found.after))
    seen = others if not found.command else [PROGRAM]
    lines += section("SEE ALSO", [",\n".join(f"\\fB{escaped(other)}\\fR(1)" for other in seen)])
    return "\n".join(lines) + "\n"
