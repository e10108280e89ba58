# Runs the program, and compares its status and what it prints with what is expected. To be sourced, behind counts.sh and
# room.sh; program is the program, or a script before it.

# What the last run ended with.
status=0

# run ARGUMENT.. (runs the program, and sets status)
run() {
    status=0
    "$program" "$@" > "$work/stdout" 2> "$work/stderr" < "$work/stdin" || status=$?
}

# run_in_little_memory ARGUMENT.. (the same, where the program may have 200 MB, or MOST_KILOBYTES)
run_in_little_memory() {
    status=0
    (ulimit -v "${MOST_KILOBYTES:-200000}" && exec "$program" "$@") > "$work/stdout" 2> "$work/stderr" || status=$?
}

# check NAME STATUS WORD-ON-STDOUT WORD-ON-STDERR ARGUMENT.. (an empty word: nothing may be printed there)
check() {
    local name=$1 wanted=$2 on_stdout=$3 on_stderr=$4
    shift 4
    run "$@"
    judge_run "$name" "$status" "$wanted" "$on_stdout" "$on_stderr"
}

# judge_run NAME STATUS WANTED-STATUS WORD-ON-STDOUT WORD-ON-STDERR (of what the last run printed)
judge_run() {
    local name=$1 status=$2 wanted=$3 stream
    if [ "$status" -ne "$wanted" ]; then
        wrong "$name: status $status, expected $wanted"
        return
    fi
    for stream in stdout stderr; do
        local word=$4
        [ "$stream" = stderr ] && word=$5
        if { [ -z "$word" ] && [ -s "$work/$stream" ]; } ||
            { [ -n "$word" ] && ! grep -qF -- "$word" "$work/$stream"; }; then
            wrong "$name: on $stream, expected '${word:-nothing}': $(head -n 5 "$work/$stream")"
            return
        fi
    done
    right
}

# same NAME EXPECTED-FILE (the last run printed this on the standard output)
same() {
    if cmp -s "$2" "$work/stdout"; then
        right
    else
        wrong "$1: another output: $(diff "$2" "$work/stdout" | head -n 6)"
    fi
}

# said NAME LINE.. (the last run printed these lines on the standard error, and nothing else)
said() {
    local name=$1
    shift
    if printf '%s\n' "$@" | cmp -s - "$work/stderr"; then
        right
    else
        wrong "$name: on stderr, expected '$*': $(head -n 5 "$work/stderr")"
    fi
}

# check_lines NAME STATUS ARGUMENT.. (the lines of $work/expected on the standard output, and those behind them on the
# standard error, where a line begins with "bg_relay: ")
check_lines() {
    local name=$1 wanted=$2
    shift 2
    run "$@"
    if [ "$status" -ne "$wanted" ]; then
        wrong "$name: status $status, expected $wanted: $(head -n 3 "$work/stderr")"
        return
    fi
    if cat "$work/stdout" "$work/stderr" | cmp -s - "$work/expected"; then
        right
    else
        wrong "$name: $(cat "$work/stdout" "$work/stderr" | diff "$work/expected" - | head -n 6)"
    fi
}

# same_count NAME WORD N (the word comes so often on the standard output of the last run)
same_count() {
    local found
    found=$(grep -o -- "$2" "$work/stdout" | wc -l)
    if [ "$found" -eq "$3" ]; then right; else wrong "$1: $2 comes $found times, expected $3"; fi
}

# on_screen ARGUMENT.. (runs the program with a terminal as its standard output, and prints what it wrote there)
on_screen() {
    python3 - "$program" "$@" 2> /dev/null << 'END'
import os, pty, subprocess, sys
screen, end = pty.openpty()
run = subprocess.Popen(sys.argv[1:], stdin=subprocess.DEVNULL, stdout=end)
os.close(end)
text = b""
try:
    while part := os.read(screen, 4096):
        text += part
except OSError:
    pass
sys.stdout.buffer.write(text.replace(b"\r\n", b"\n"))
sys.exit(run.wait())
END
}
