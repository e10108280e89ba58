"""Completions of help texts for the shells bash, zsh and fish. An option with fixed values completes these, one that
takes a file files, one that takes a folder folders, and any other value nothing."""
import textwrap

from help_texts import PROGRAM

MADE = "made of the help texts by tools/install"


def words_of(found):
    """The options of a help text, as they are typed."""
    return [word for option in found.options for word in (option.name, option.short) if word]


def takes_files(found):
    return any(argument.takes() == "file" for argument in found.arguments)


def explained(program):
    """The commands that have help of their own, which the command help takes."""
    return [name for name in program.commands if name != "help"]


# bash

BASH = r"""# bash completion of {program}, {made}
_{program}() {{
    local current=${{COMP_WORDS[COMP_CWORD]}} before=${{COMP_WORDS[COMP_CWORD - 1]}} command=${{COMP_WORDS[1]}}
    local takes= values=
    COMPREPLY=()
    # (what stands behind < or > is a file)
    case $before in
        *[\<\>]*)
            compopt -o default
            return
            ;;
    esac
    # (--option=value is three words here)
    if [ "$current" = = ]; then
        current=
    elif [ "$before" = = ] && [ "$COMP_CWORD" -gt 2 ]; then
        before=${{COMP_WORDS[COMP_CWORD - 2]}}
    fi
    if [ "$COMP_CWORD" -eq 1 ]; then
        takes=values values='{first}'
    else
        case $command:$before in
{options}
            *)
                case $command:$current in
{words}
{files}
                esac
                ;;
        esac
    fi
    # (readline completes files and folders by itself)
    case $takes in
        values) mapfile -t COMPREPLY < <(compgen -W "$values" -- "$current") ;;
        file) compopt -o default ;;
        folder) compopt -o dirnames ;;
    esac
}}
complete -F _{program} {program}
"""


def bash_case(keys, takes, values, indent):
    """The case of the words of these keys, on lines that are not too long."""
    lines = textwrap.wrap(" | ".join(keys), 100 - indent, break_long_words=False, break_on_hyphens=False)
    pattern = " \\\n".join(" " * indent + line for line in lines)
    more = f" values='{values}'" if values else ""
    return f"{pattern}) takes={takes}{more} ;;"


def bash(program, commands):
    kinds = {}
    for found in commands:
        for option in found.options:
            if option.takes():
                kind = option.takes(), " ".join(option.values)
                kinds.setdefault(kind, []).append(f"{found.command}:{option.name}")
    options = [bash_case(keys, *kind, 12) for kind, keys in kinds.items()]
    words = [bash_case([f"{found.command}:-*"], "values", " ".join(words_of(found)), 20) for found in commands]
    files = bash_case([f"{found.command}:*" for found in commands if takes_files(found)], "file", "", 20)
    words.append(bash_case(["help:*"], "values", " ".join(explained(program)), 20))
    first = [*program.commands, *words_of(program)]
    return BASH.format(program=PROGRAM, made=MADE, first=" ".join(first), options="\n".join(options),
                       words="\n".join(words), files=files)


# zsh

ZSH = """\
#compdef {program}
# zsh completion of {program}, {made}
_{program}() {{
    local state line
    local -a commands
    commands=(
{commands}
    )
    _arguments -C \\
{options} \\
        '1: :->command' \\
        '*:: :->rest'
    case $state in
        command) _describe command commands ;;
        rest)
            case $words[1] in
                help)
                    _describe command commands
                    ;;
{rest}
            esac
            ;;
    esac
}}
_{program} "$@"
"""
ZSH_ACTIONS = {"folder": "_files -/", "file": "_files", "text": " "}


def zsh_text(text, marks="[]:"):
    """A text between quotes, in which these bytes are no marks."""
    for mark in ("\\", *marks):
        text = text.replace(mark, f"\\{mark}")
    return text.replace("'", "'\\''")


def zsh_action(found):
    return f"({' '.join(found.values)})" if found.takes() == "values" else ZSH_ACTIONS[found.takes()]


def zsh_option(option):
    value = f":{option.value}:{zsh_action(option)}" if option.takes() else ""
    mark = "=" if value else ""
    about = f"[{zsh_text(option.about)}]{value}"
    if option.short:
        return [f"'({option.short} {option.name})'{{{option.short},{option.name}}}'{about}'"]
    return [f"'{option.name}{mark}{about}'"]


def zsh_argument(argument):
    place = "*" if argument.is_many else "" if argument.is_needed else ":"
    return f"'{place}:{argument.value}:{zsh_action(argument)}'"


def zsh(program, commands):
    listed = [f"        '{zsh_text(f'{name}', ':')}:{zsh_text(about, '')}'"
              for name, about in program.commands.items()]
    options = [f"        {word}" for option in program.options for word in zsh_option(option)]
    rest = []
    for found in commands:
        words = [word for option in found.options for word in zsh_option(option)]
        words += [zsh_argument(argument) for argument in found.arguments]
        lines = " \\\n".join(f"                        {word}" for word in words)
        blanks = " " * 16
        rest += [f"{blanks}{found.command})", f"{blanks}    _arguments \\", lines, f"{blanks}    ;;"]
    return ZSH.format(program=PROGRAM, made=MADE, commands="\n".join(listed), options=" \\\n".join(options),
                      rest="\n".join(rest))


# fish

FISH = """\
# fish completion of {program}, {made}
function __{program}_command -d 'Whether this is the command, or none is there yet'
    set -l words (commandline -opc)
    if test (count $argv) -eq 0
        test (count $words) -eq 1
    else
        test (count $words) -gt 1; and test "$words[2]" = "$argv[1]"
    end
end
complete -c {program} -f
"""
FISH_ACTIONS = {"folder": "-x -a '(__fish_complete_directories)'", "file": "-r -F", "text": "-x", "": ""}


def fish_text(text):
    return "'" + text.replace("\\", "\\\\").replace("'", "\\'") + "'"


def fish_option(option, condition):
    words = ["complete", "-c", PROGRAM, "-n", condition, "-l", option.name[2:]]
    if option.short:
        words += ["-s", option.short[1:]]
    values = f"-x -a '{' '.join(option.values)}'" if option.takes() == "values" else FISH_ACTIONS[option.takes()]
    return " ".join([*words, *([values] if values else []), "-d", fish_text(option.about)])


def fish(program, commands):
    none = f"__{PROGRAM}_command"
    lines = [f"complete -c {PROGRAM} -n {none} -a {name} -d {fish_text(about)}"
             for name, about in program.commands.items()]
    lines.append(f"complete -c {PROGRAM} -n '{none} help' -a '{' '.join(explained(program))}'")
    lines += [fish_option(option, none) for option in program.options]
    for found in commands:
        condition = f"'{none} {found.command}'"
        lines += [fish_option(option, condition) for option in found.options]
        if takes_files(found):
            lines.append(f"complete -c {PROGRAM} -n {condition} -F")
    return FISH.format(program=PROGRAM, made=MADE) + "\n".join(lines) + "\n"
