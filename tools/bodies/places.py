"""Where a line of a source file lies: in which function, in a constant, or in no code.

It goes by the layout that `rt fmt` gives, which the gate holds each file to: what a line lies in begins at the nearest
line above that is indented less.
"""
import re

VISIBLE = r"(?:pub(?:\([a-z: ]+\))? )?"
FUNCTION = re.compile(rf' *{VISIBLE}(const )?(?:unsafe )?(?:extern "C" )?fn (\w+)')
CONSTANT = re.compile(rf" *{VISIBLE}(?:const|static) (\w+)\s*:")
USE = re.compile(rf" *(?:ghost )?{VISIBLE}use\b")
CLAUSE = re.compile(r" *(?:requires|ensures|ghost)\b")


def is_test(file):
    """Returns whether a file is compiled with tests alone."""
    return file == "src/tests.rt" or file.startswith("src/tests/")


def indent(line):
    return len(line) - len(line.lstrip())


def is_in_comment(line, column):
    """Returns whether a place of a line lies behind a // that stands in no string."""
    code = re.sub(r'"(?:[^"\\]|\\.)*"?', lambda found: "_" * len(found[0]), line)
    return 0 <= code.find("//") <= column


def why_no_code(lines, number, old, new):
    """Returns why a change of this line changes no code, or nothing. A body may be put in behind the last clause."""
    begins = lines[number].index(old) + len(old) - len(old.lstrip())
    if is_in_comment(lines[number], begins):
        return "its old text stands in a comment"
    if is_in_clause(lines, number) and not new.startswith(old + " {"):
        return "its old text stands in a contract, and not in a body"
    return ""


def headers(lines, number):
    """Yields the number of a line, and those of the lines that begin what it lies in, from the inside."""
    while True:
        while number and re.match(r" *(?:\{$|\)|where\b)", lines[number]):
            # the opening brace and the answer of a function stand below where it begins
            depth = indent(lines[number])
            number -= 1
            while number and (not lines[number].strip() or indent(lines[number]) > depth):
                number -= 1
        yield number
        depth = indent(lines[number])
        above = range(number - 1, -1, -1)
        outer = (at for at in above if lines[at].strip() and indent(lines[at]) < depth)
        number = next(outer, None)
        if number is None:
            return


def is_in_clause(lines, number):
    """Returns whether a line lies between the head of a function and its body, in a clause."""
    for at in range(number, -1, -1):
        if FUNCTION.match(lines[at]) or lines[at].strip() in ("{", "}"):
            return False
        if CLAUSE.match(lines[at]) and not USE.match(lines[at]):
            depth = indent(lines[at])
            inside = (it for it in lines[at + 1 : number + 1] if it.strip())
            return at == number or all(indent(it) >= depth and it.strip() != "{" for it in inside)
    return False


def function_at(file, lines, number):
    """Returns the symbol of the function that a line lies in, of a method its end, which begins with ::, as its type may
    be of another module. Returns None where the line lies in no function, or in one that may run while the crate is
    compiled."""
    name = None
    for at in headers(lines, number):
        if name is None:
            found = FUNCTION.match(lines[at])
            if CONSTANT.match(lines[at]) or found and found[1]:
                return None
            name = found and found[2]
            if name and is_cyclic(lines, at):
                return None
        elif re.match(r" *impl\b", lines[at]):
            return f"::{type_of(whole_head(lines, at))}::{name}"
        elif found := re.match(rf" *{VISIBLE}(?:unsafe )?trait (\w+)", lines[at]):
            return f"::{found[1]}::{name}"
        else:
            return None
    module = file.removesuffix(".rt").split("/")[1:]
    module = [] if module in (["lib"], ["main"]) else module
    return "::".join([*module, name]) if name else None


def is_cyclic(lines, number):
    """Returns whether a function shares its proof with others that it calls in a cycle."""
    while number and lines[number - 1].lstrip().startswith(("#[", "//")):
        number -= 1
        if "#[cycle(" in lines[number]:
            return True
    return False


def whole_head(lines, number):
    """Returns the head of an impl, which may take several lines, up to its opening brace."""
    found = []
    for line in lines[number:]:
        found.append(line.strip())
        if line.rstrip().endswith("{"):
            break
    return " ".join(found).removesuffix("{").strip()


def type_of(head):
    """Returns how the symbol of a method names its impl: the type, and the trait with what that is of."""
    head = re.sub(r"^impl(?:<(?:[^<>]|<[^<>]*>)*>)? |\w+::", "", head)
    head = re.sub(r" where .*", "", head)
    trait, _, kind = head.rpartition(" for ")
    # what a trait is of counts, but for its lifetimes and parameters, whose names have one letter
    of = "".join(word for word in re.findall(r"\w+", trait) if len(word) > 1)
    return re.match(r"\W*(\w*)", kind)[1] + of


def constant_at(lines, number):
    """Returns the name of the constant that a line lies in, if it does."""
    for at in headers(lines, number):
        found = CONSTANT.match(lines[at])
        if found or FUNCTION.match(lines[at]):
            return found and found[1]
    return None


def users_of(crate, constant, seen=()):
    """Returns the functions that name a constant, also through other constants, or None where something else does."""
    users, word = set(), re.compile(rf"\b{constant}\b")
    if constant == "_":
        return None
    for file, lines in crate.sources():
        for number, line in enumerate(lines):
            found = word.search(line)
            if not found or is_in_comment(line, found.start()):
                continue
            if re.search(rf"\b{constant} as\b", line) and is_use(lines, number):
                return None
            other = constant_at(lines, number)
            if other == constant or is_use(lines, number):
                continue
            function = function_at(file, lines, number)
            more = {function} if function else None
            if other and other not in seen:
                more = users_of(crate, other, (*seen, constant, other))
            if more is None:
                return None
            users |= more
    return users


def is_use(lines, number):
    return any(USE.match(lines[at]) for at in headers(lines, number))


def changed_functions(crate, body):
    """Returns the functions whose code a wrong body changes, or None where that can't be told."""
    functions = set()
    for file, number in body.lines:
        lines = crate.source(file)
        function = function_at(file, lines, number)
        constant = constant_at(lines, number)
        more = {function} if function else users_of(crate, constant) if constant else None
        if not more:
            return None
        functions |= more
    return functions
