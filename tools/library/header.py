"""What include/bg_relay.h declares: its numbers, its structs and its calls."""
import pathlib
import re

TOP = pathlib.Path(__file__).resolve().parents[2]
HEADER = (TOP / "include/bg_relay.h").read_text()
SAME = {"bg_status": "uint32_t"}


def without_comments(text):
    return re.sub(r"/\*.*?\*/", "", text, flags=re.S)


def declared_parameter(text):
    """A parameter or a field of C, as its type and its name."""
    kind, name, room = re.fullmatch(r"(.*?)(\w+)(\[\w+\])?", text.strip(), re.S).groups()
    kind = " ".join(kind.replace("*", " * ").split()) + (room or "")
    return SAME.get(kind, kind), name


def calls_of(text):
    """The calls that a header, or a file of C, declares: each name, with the type of the result and the parameters."""
    calls = re.findall(
        r"^(?:BG_HIDDEN )?((?:const )?\w+(?: \*|\s))\s*(bg_\w+)\(([^)]*)\);", without_comments(text), re.M
    )
    for result, name, parameters in calls:
        result = result.strip()
        listed = [] if parameters.strip() == "void" else parameters.split(",")
        yield name, (SAME.get(result, result), [declared_parameter(it) for it in listed])


def structs_of(text):
    """The structs of a header, or of a file of C: each name, with the fields."""
    for body, name in re.findall(r"^typedef struct \w+ \{(.*?)\} (\w+);", without_comments(text), re.S | re.M):
        yield name, [declared_parameter(it) for it in body.split(";") if it.strip()]


def numbers_of(text):
    """The numbers of the lists of a header, by their names."""
    return {name: int(number) for name, number in re.findall(r"\b(BG_\w+) = (\d+)\b", without_comments(text))}


def limits_of(text):
    """The limits of a header, by their names."""
    return {name: int(number) for name, number in re.findall(r"^#define (BG_\w+) (\d+)u\b", text, re.M)}
