# Where the program stands, and whether it was proved of the sources as they are. To be sourced; it sets
# top and program. Where the environment has BG_RELAY, that is the program, whatever it was built of.
#
# The times of files say nothing of that. Who builds the program notes in FILE.proved, beside it, the sums
# of the sources and of the program, and the toolchain: where any of them is another now, what runs is
# said not to be proved. So it is with the program that is compiled alone, in FILE.compiled.
top=$(cd "$(dirname "$(readlink -f "${BASH_SOURCE[0]}")")/.." && pwd)
program=${BG_RELAY:-$top/crates/bg_relay/out/bg_relay}
compiled=$top/crates/bg_relay/out/compiled/bg_relay
if [ -n "${BG_RELAY-}" ] && [ ! -x "$BG_RELAY" ]; then
    echo "bg_relay: BG_RELAY names no program: $BG_RELAY" >&2
    exit 1
fi

# lines_of CRATE (what crates.txt says of it and of the crates of the repository that it stands on, each
# behind those it stands on)
lines_of() {
    awk -v wanted="$1" '
        function visit(name,    words, count, at) {
            if (!(name in uses) || seen[name]++) return
            count = split(uses[name], words, " ")
            for (at = 1; at <= count; at++) visit(words[at])
            print heads[name] ":" uses[name]
        }
        { sub(/#.*/, "") }
        split($0, halves, ":") == 2 {
            split(halves[1], words, " ")
            heads[words[1]] = halves[1]
            uses[words[1]] = halves[2]
        }
        END { visit(wanted) }' "$top/crates.txt"
}

# crates_of CRATE (it and the crates of the repository that it stands on, in that order)
crates_of() {
    lines_of "$1" | sed 's/[ :].*//'
}

# sum_of_input (of what the standard input gives)
sum_of_input() {
    local line
    line=$(b2sum -l 256)
    echo "${line%% *}"
}

# sum_of_sources CRATE (of all that its proof rests on but the toolchain: the sources of it and of the
# crates that it stands on, with their names, what crates.txt says of these, and HANDLES)
sum_of_sources() {
    local lines crate folders=()
    mapfile -t lines < <(lines_of "$1")
    for crate in "${lines[@]%%[ :]*}"; do
        folders+=("crates/$crate/src" "crates/$crate/specs" "crates/$crate/proofs")
    done
    (
        cd "$top"
        printf '%s\n' "${lines[@]}"
        cat HANDLES
        find "${folders[@]}" -type f -print0 2> /dev/null | LC_ALL=C sort -z | xargs -0 b2sum -l 256
    ) | sum_of_input
}

# toolchain (its name, as rt version prints it; nothing where rt is not on the PATH)
toolchain() {
    local rt words=
    if rt=$(readlink -f "$(command -v rt)"); then
        read -r words 2> /dev/null < "${rt%/*}/../KIT-ID" || true
    fi
    echo "$words"
}

# note_built HOW FILE CRATE SUM (notes in FILE.HOW, which is proved or compiled, that FILE was built so just now, of a
# crate whose sources had this sum when that began; fails where they have another one now)
note_built() {
    if [ "$(sum_of_sources "$3")" != "$4" ]; then
        echo "bg_relay: sources changed while $2 was built, so of what it was $1 is not known: run this again" >&2
        return 1
    fi
    printf '%s\n' "sources $4" "file $(sum_of_input < "$2")" "toolchain $(toolchain)" > "$2.$1.$$"
    mv "$2.$1.$$" "$2.$1"
}

# is_noted HOW FILE CRATE (whether FILE stands as it was built so, proved or compiled, of a crate whose sources are
# still the same, by the toolchain that is here; where not, sets why)
is_noted() {
    local sources file toolchain here
    why="no $1 program stands here"
    [ -e "$2" ] || return 1
    why="nothing says that the program which stands here was $1"
    { read -r _ sources && read -r _ file && read -r _ toolchain; } 2> /dev/null < "$2.$1" || return 1
    [ "$file" = "$(sum_of_input < "$2")" ] || return 1
    why="the sources changed since the program was $1"
    [ "$sources" = "$(sum_of_sources "$3")" ] || return 1
    why="the program was $1 by another toolchain, $toolchain"
    here=$(toolchain)
    [ "$toolchain" = "${here:-$toolchain}" ]
}

# note_proved FILE CRATE SUM, is_proved FILE CRATE (the same of what was proved and built)
note_proved() {
    note_built proved "$@"
}
is_proved() {
    is_noted proved "$@"
}

# is_current FILE CRATE (whether what was built of a crate stands there, and no source of it or below it
# is newer)
is_current() {
    [ -e "$1" ] || return 1
    local name folders=()
    for name in $(crates_of "$2"); do
        folders+=("$top/crates/$name/src" "$top/crates/$name/specs" "$top/crates/$name/proofs")
    done
    [ -z "$(find "${folders[@]}" -newer "$1" -print -quit 2> /dev/null)" ]
}

# is_built (whether the program stands that is to run: the proved one, or BG_RELAY; where not, sets why)
is_built() {
    if [ -n "${BG_RELAY-}" ] || is_proved "$program" bg_relay; then return 0; fi
    # What rt ci builds, run by hand, is noted by nobody; but it keeps sums of its own on this machine.
    local sources
    sources=$(sum_of_sources bg_relay)
    [ -e "$program" ] && "$top/tools/proved_by_ci" 2> /dev/null && note_proved "$program" bg_relay "$sources"
}

# needs_compiled (compiles the program, and proves nothing, where none of the sources as they are stands in $compiled;
# waits where another call does so already)
needs_compiled() {
    local why
    if is_noted compiled "$compiled" bg_relay; then return; fi
    needs_rt
    mkdir -p "${compiled%/*}"
    (
        if command -v flock > /dev/null; then flock 9; fi
        if is_noted compiled "$compiled" bg_relay; then exit 0; fi
        echo "bg_relay: compiling the program, which proves nothing, and takes a minute or two, once" >&2
        sources=$(sum_of_sources bg_relay)
        "$top/tools/compile_program" "$compiled" 9>&- && note_built compiled "$compiled" bg_relay "$sources"
    ) 9> "${compiled%/*}/lock" || exit 1
}

# version (of the program, whose sources say it once)
version() {
    sed -n 's/^const VERSION: &str = "\(.*\)";$/\1/p' "$top/crates/bg_options/src/tasks.rt"
}

# short_sum SUM (of sources, as it is shown)
short_sum() {
    echo "${1:0:12}"
}

# needs_rt (ends the script where the toolchain's command is missing)
needs_rt() {
    if ! command -v rt > /dev/null; then
        echo "bg_relay: rt, the command of the Rattle toolchain, is not on the PATH" >&2
        exit 1
    fi
}

# tell_progress CRATE LOG (says each minute, by the end of what rt prints, how far it is within a crate; to be killed)
tell_progress() {
    while sleep 60 > /dev/null 2>&1 && kill -0 $$ 2> /dev/null; do
        echo "bg_relay: $1, after $((SECONDS / 60)) minutes: $(tail -n 1 "$2" | cut -c 1-120)" >&2
    done
}

# prove_up_to CRATE COMMAND.. (proves the crates that a crate stands on, the lowest first, and then runs the command in
# it, which is one of rt that proves it; says on the standard error how far it is, and ends the script where one fails.
# What rt prints goes to build.log of the crate's folder out. rt gets the words of rt_words, as --jobs 2, if any)
rt_words=()
prove_up_to() {
    local log=$top/crates/$1/out/build.log crates at command teller status
    mkdir -p "$(dirname "$log")"
    echo "bg_relay: what rt prints goes to $log" >&2
    : > "$log"
    mapfile -t crates < <(crates_of "$1")
    for at in "${!crates[@]}"; do
        echo "bg_relay: crate $((at + 1)) of ${#crates[@]}, ${crates[at]}, after $((SECONDS / 60)) minutes" >&2
        command=(rt lib "${rt_words[@]}")
        if [ "${crates[at]}" = "$1" ]; then command=("$2" "$3" "${rt_words[@]}" "${@:4}"); fi
        tell_progress "${crates[at]}" "$log" &
        teller=$!
        status=0
        (cd "$top/crates/${crates[at]}" && "${command[@]}" < /dev/null) >> "$log" 2>&1 || status=$?
        kill "$teller"
        wait "$teller" 2> /dev/null || true
        if [ "$status" -ne 0 ]; then
            echo "bg_relay: the build failed at ${crates[at]}; the end of what rt printed:" >&2
            tail -n 20 "$log" >&2
            exit 1
        fi
    done
    echo "bg_relay: built and proved, after $((SECONDS / 60)) minutes" >&2
}
