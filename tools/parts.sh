# The parts of a check, each with what it counted and what it took. To be sourced; what a part counts is added to passed
# and failed. Who sets a trap of its own at the end calls clear_parts there.
passed=0
failed=0
faulty=()
table=()
output=$(mktemp)
# Of the parts that run side by side: how many do at once, what each is, the process that runs it, and the folder for what
# they print.
most_at_once=$(nproc)
begun=()
runners=()
prints=$(mktemp -d)
trap clear_parts EXIT

# processor_seconds PROCESS (what its children that ended have taken of processors, whole seconds: the 16th and 17th
# field of its stat, in ticks. The call itself runs in a copy of the shell, whose children `times` would tell of)
processor_seconds() {
    awk -v ticks="$(getconf CLK_TCK)" '{ sub(/.*\) /, ""); printf "%d\n", ($14 + $15) / ticks }' "/proc/$1/stat"
}

# row NAME WALL-SECONDS PROCESSOR-SECONDS (a line of the table of minutes)
row() {
    table+=("$(awk -v name="$1" -v wall="$2" -v taken="$3" \
        'BEGIN { printf "%-50s %8.1f %8.1f", name, wall / 60, taken / 60 }')")
}

# count NAME STATUS FILE (counts what a part did that ended with this status: the last line of what it printed is 'N
# passed, M failed'; status 77 says that it was left out)
count() {
    local before=$failed
    if [ "$2" = 77 ]; then
        echo "$1 was left out"
    elif [[ $(tail -n 1 "$3") =~ ^([0-9]+)\ passed,\ ([0-9]+)\ failed$ ]]; then
        passed=$((passed + BASH_REMATCH[1]))
        failed=$((failed + BASH_REMATCH[2]))
        # A part that counts no failure, and fails all the same.
        if [ "$2" != 0 ] && [ "${BASH_REMATCH[2]}" -eq 0 ]; then
            failed=$((failed + 1))
            echo "$1 ended with status $2"
        fi
    else
        failed=$((failed + 1))
        echo "$1 ended with status $2, and counted nothing"
    fi
    if [ "$failed" -gt "$before" ]; then faulty+=("failed: $1"); fi
}

# part COMMAND.. (runs a part, and prints what it prints as it comes)
part() {
    local status began=$SECONDS taken
    taken=$(processor_seconds $$)
    "$@" | tee "$output"
    status=${PIPESTATUS[0]}
    count "$*" "$status" "$output"
    row "$*" "$((SECONDS - began))" "$(($(processor_seconds $$) - taken))"
}

# run_apart FILE COMMAND.. (runs a command. What it prints goes to FILE.output and FILE.errors; its status, and what it
# took, to FILE.ended, which is not there where this process was killed)
run_apart() {
    local status=0 began=$SECONDS own=$BASHPID
    "${@:2}" > "$1.output" 2> "$1.errors" || status=$?
    echo "$status $((SECONDS - began)) $(processor_seconds "$own")" > "$1.ended"
}

# begin COMMAND.. (runs a part beside those that were begun before it, and waits first where as many run as may. Each has
# a process group of its own, by which clear_parts ends it. finish_parts says what it came to)
begin() {
    while [ "$(jobs -rp | wc -l)" -ge "$most_at_once" ]; do wait -n; done
    set -m
    run_apart "$prints/${#begun[@]}" "$@" < /dev/null &
    set +m
    begun+=("$*")
    runners+=("$!")
}

# finish_parts (waits for the parts that were begun, and prints all that each has printed, and counts it, in the order in
# which they began)
finish_parts() {
    local at status wall taken
    for at in "${!begun[@]}"; do
        wait "${runners[at]}" 2> "$output"
        cat "$prints/$at.errors" >&2
        cat "$prints/$at.output"
        read -r status wall taken 2> "$output" < "$prints/$at.ended" || status=unknown wall=0 taken=0
        count "${begun[at]}" "$status" "$prints/$at.output"
        row "${begun[at]}" "$wall" "$taken"
    done
    begun=()
    runners=()
    rm -f "$prints"/*
}

# clear_parts (ends the parts that still run, and removes the files of this one)
clear_parts() {
    local runner
    trap '' HUP INT TERM
    for runner in $(jobs -rp); do kill -- "-$runner"; done 2> "$output"
    rm -rf "$output" "$prints"
}

# tell_parts (prints what each part took, which of them failed, and, last, what passed and failed; the status says whether
# anything failed)
tell_parts() {
    printf '%-50s %8s %8s\n' "minutes" "wall" "processor"
    printf '%s\n' "${table[@]}"
    row "all" "$SECONDS" "$(processor_seconds $$)"
    printf '%s\n' "${table[-1]}" "${faulty[@]}"
    echo "$passed passed, $failed failed"
    [ "$failed" -eq 0 ]
}
