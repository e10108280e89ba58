"""What the manual pages and the completions of an installation have, against the help texts, and what the tools that
read them say; for tools/checks/check_install and check_release, with which program they try."""
import os
import pathlib
import re
import shutil
import subprocess

from counting import right

TOP = pathlib.Path(__file__).resolve().parents[2]
COMPLETIONS = {"bash": "share/bash-completion/completions/bg_relay", "zsh": "share/zsh/site-functions/_bg_relay",
               "fish": "share/fish/vendor_completions.d/bg_relay.fish"}


def needs(tool, what):
    """Whether the machine has a tool; where not, says what is left out."""
    if shutil.which(tool):
        return True
    print(f"there is no {tool}, so {what} was left out")
    return False


def run(*words, more=None):
    """Runs a command, and returns its status and what it printed on both streams together."""
    done = subprocess.run([str(word) for word in words], stdin=subprocess.DEVNULL, stdout=subprocess.PIPE, text=True,
                          stderr=subprocess.STDOUT, env=os.environ | (more or {}), cwd=TOP, check=False)
    return done.returncode, done.stdout


def runs(name, *words):
    """The command ends well, and prints nothing."""
    done = run(*words)
    right(done == (0, ""), f"{name}: status {done[0]}: {done[1][:400]}")


def tree(folder):
    """What lies below a folder: each path with what is there."""
    return {str(path.relative_to(folder)): os.readlink(path) if path.is_symlink() else
            path.read_bytes() if path.is_file() else None for path in pathlib.Path(folder).rglob("*")}


def has_built():
    """Whether the program that is tried is one that stands proved."""
    return "BG_RELAY" not in os.environ and run(TOP / "bg_relay", "--version")[1].endswith(", proved)\n")


def has_library():
    """Whether the library for C stands proved."""
    return run("bash", "-c", ". tools/program.sh; is_proved crates/bg_c/out/libbg_c.a bg_c")[0] == 0


def program_here():
    """The program that is tried."""
    if "BG_RELAY" in os.environ:
        return os.environ["BG_RELAY"]
    if has_built():
        return str(TOP / "crates/bg_relay/out/bg_relay")
    subprocess.run(["bash", "-c", ". tools/program.sh; needs_compiled"], cwd=TOP, check=True)
    return str(TOP / "crates/bg_relay/out/compiled/bg_relay")


def plain(page):
    """A page as it is rendered, on lines that are not broken."""
    given = os.environ | {"MANWIDTH": "1000", "LC_ALL": "C.UTF-8", "MAN_KEEP_FORMATTING": ""}
    done = subprocess.run(["man", "-l", str(page)], stdin=subprocess.DEVNULL, capture_output=True, text=True, env=given,
                          check=False)
    return done.returncode, re.sub(".\b", "", done.stdout), done.stderr


def complaints(page):
    """What the tools that are here complain of in a page. That a page has no date is meant: none is known."""
    if shutil.which("groff"):
        yield run("groff", "-man", "-Tutf8", "-ww", "-z", page)[1]
    if shutil.which("mandoc"):
        lines = run("mandoc", "-T", "lint", "-W", "warning", page)[1].splitlines()
        yield "\n".join(line for line in lines if "missing date" not in line)


def check_pages(prefix, program, commands):
    """Each page has all that the help has, and no tool complains."""
    for tool in ("man", "groff", "mandoc"):
        needs(tool, "what it says of the manual pages")
    for page in (prefix / "share/man").glob("man*/*"):
        for said in complaints(page):
            right(not said, f"{page.name}: {said[:300]}")
    names = {"bg_relay.1", *(f"bg_relay-{found.command}.1" for found in commands)}
    there = {file.name for file in (prefix / "share/man/man1").iterdir()}
    right(there == names, f"the manual pages are {sorted(there ^ names)} apart")
    for found in [program, *commands]:
        page = prefix / f"share/man/man1/bg_relay{found.command and '-' + found.command}.1"
        if not page.exists() or not shutil.which("man"):
            continue
        status, text, said = plain(page)
        right(status == 0 and not said, f"man -l {page.name}: status {status}: {said}")
        text = " ".join(text.split())
        wanted = [word for item in found.options for word in (item.name, item.short, item.about)]
        wanted += [text for item in found.arguments for text in (item.name, item.about)] + [found.usage]
        wanted += [f"{name} {about}" for name, about in found.commands.items()]
        wanted += [line.strip() for line in [*found.about, *found.after]]
        lacks = [word for word in wanted if " ".join(word.split()) not in text]
        right(not lacks, f"{page.name} lacks {lacks}")


def completed(script, words):
    """What bash completes of these words, the last of which is begun: its words, or what is left to readline."""
    lines = ["compopt() { echo \"compopt $*\"; }", f". {script}", f"COMP_WORDS=({' '.join(words)})",
             f"COMP_CWORD={len(words) - 1}", "$(complete -p bg_relay | sed -E 's/.*-F ([^ ]+) .*/\\1/')",
             'printf "%s\\n" "${COMPREPLY[@]}"']
    return run("bash", "--norc", "-c", "\n".join(lines))[1].split("\n")[:-1]


# What some options take, whatever the help texts are read as.
TAKEN = {"new --rules ''": ["1", "2"], "play --player ''": ["X", "O", "x", "o"], "page --numbering ''": ["mover", "X"],
         "act --match ''": ["compopt -o default", ""], "recover --x ''": ["compopt -o dirnames", ""],
         "check --files-from ''": ["compopt -o default", ""], "sim --seed ''": [""],
         "judge '<' ''": ["compopt -o default", ""], "judge '2>' exa": ["compopt -o default", ""],
         "help refe": ["referee"]}


def check_bash(script, program, commands):
    """What bash completes: commands, options, and what each option takes."""
    right(set(program.commands) < set(completed(script, ["bg_relay", "''"])), "bash does not complete each command")
    right(completed(script, ["bg_relay", "refe"]) == ["referee"], "bash does not complete refe")
    right(completed(script, ["bg_relay", "new", "--le"]) == ["--length"], "bash does not complete new --le")
    for words, wanted in TAKEN.items():
        right(completed(script, ["bg_relay", *words.split()]) == wanted, f"bash does not complete {words}")
    actions = {"file": ["compopt -o default", ""], "folder": ["compopt -o dirnames", ""], "text": [""]}
    for found in commands:
        options = {word for option in found.options for word in (option.name, option.short) if word}
        has = set(completed(script, ["bg_relay", found.command, "-"]))
        right(has == options, f"bash completes of {found.command} {has}, and its options are {options}")
        for option in found.options:
            if option.takes():
                wanted = actions.get(option.takes(), list(option.values))
                for words in (["''"], ["=", "''"], ["="]):
                    has = completed(script, ["bg_relay", found.command, option.name, *words])
                    right(has == wanted, f"bash completes of {found.command} {option.name} {words}: {has}")
        has = completed(script, ["bg_relay", found.command, "exa"])
        takes = any(argument.takes() == "file" for argument in found.arguments)
        right(has == (actions["file"] if takes else [""]), f"bash completes of {found.command} exa: {has}")


FISH = {"values": "-x -a '{}'", "folder": "-x -a '(__fish_complete_directories)'", "file": "-r -F", "text": "-x",
        "": ""}


def check_other_shells(prefix, program, commands):
    """The files for zsh and fish parse, and have each command and each option, with what it takes."""
    zsh, fish = ((prefix / COMPLETIONS[name]).read_text() for name in ("zsh", "fish"))
    for shell, path in COMPLETIONS.items():
        if needs(shell, "whether it reads its completions"):
            runs(f"{shell} reads its file", shell, "-n", prefix / path)
    for name in program.commands:
        right(f"\n        '{name}:" in zsh and f"\n                {name})\n" in zsh, f"zsh lacks {name}")
        right(re.search(rf"^complete .* -n __bg_relay_command -a {name} ", fish, re.M), f"fish lacks {name}")
    for found in commands:
        part = zsh[zsh.index(f"\n                {found.command})\n"):].split(";;")[0]
        for option in found.options:
            values = " ".join(option.values)
            ends = {"values": f":({values})'", "folder": ":_files -/'", "file": ":_files'", "text": ": '", "": "]'"}
            lines = [line for line in part.split("\n") if option.name + "=" in line or option.name + "[" in line
                     or option.name + "}" in line]
            is_right = len(lines) == 1 and lines[0].removesuffix(" \\").endswith(ends[option.takes()])
            right(is_right, f"zsh has of {found.command} {option.name}: {lines}")
            begin = f"complete -c bg_relay -n '__bg_relay_command {found.command}' -l {option.name[2:]} "
            lines = [line for line in fish.split("\n") if line.startswith(begin)]
            is_right = len(lines) == 1 and FISH[option.takes()].format(values) in lines[0].split(" -d ")[0]
            right(is_right, f"fish has of {found.command} {option.name}: {lines}")
    if shutil.which("fish"):
        script = f"source {prefix / COMPLETIONS['fish']}; complete -C "
        for words, wanted in {"bg_relay refe": ["referee"], "bg_relay new --rules ": ["1", "2"],
                              "bg_relay new --le": ["--length"], "bg_relay play --player ": ["O", "X", "o", "x"]}.items():
            home = {"HOME": str(prefix), "XDG_CONFIG_HOME": f"{prefix}/.config"}
            lines = run("fish", "--no-config", "-c", f"{script} '{words}'", more=home)[1].splitlines()
            has = sorted(line.split("\t")[0] for line in lines)
            right(has == wanted, f"fish completes of '{words}': {has}")
