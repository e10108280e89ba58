# What the program says of itself and of wrong arguments, and what `judge` says of one transcript. To be sourced.

# try_help (help, the version, and what is no command; the transcript that the help of judge shows is good)
try_help() {
    printf 'length 1\nopen 3 1\nX move 8-5 6-5\n' > "$work/stdin"
    check "a good transcript" 0 "ok 2" "" judge
    check "help" 0 "Usage: bg_relay" "" --help
    check "the version" 0 "bg_relay 0.1.0" "" --version
    check "help of judge" 0 "Usage: bg_relay judge" "" judge --help
    # The transcript that it shows is good, and judging it prints what it shows.
    sed -n '/^    length 1$/,/^$/s/^    //p' "$work/stdout" | sed '/^$/d' > "$work/shown"
    sed -n '/^    length 1 game/,/^$/s/^    //p' "$work/stdout" | sed '/^$/d' > "$work/expected"
    cp "$work/stdin" "$work/kept"
    cp "$work/shown" "$work/stdin"
    check "the transcript of the help" 0 "ok 2" "" judge
    same "the transcript of the help" "$work/expected"
    cp "$work/kept" "$work/stdin"
    check "a file named to judge" 2 "" "bg_relay: this command reads the standard input: bg_relay judge < FILE" \
        judge "$work/stdin"
    check "a file named to script" 2 "" "bg_relay: this command reads the standard input: bg_relay script " \
        script --length 1 --watchers 0 "$work/stdin"
    check "no command" 2 "" "Usage: bg_relay"
    check "an unknown command" 2 "" "unrecognized subcommand" walk
    check "an unknown option" 2 "" "unexpected argument" judge --loud
}

# try_transcripts (transcripts that are refused, too long, or full)
try_transcripts() {
    printf 'length 1\nopen 3 1\nX move 8-5\n' > "$work/stdin"
    check "a refused transcript" 2 "refused at line 3: more can be played" "" judge
    : > "$work/stdin"
    check "no input" 2 "refused at line 1: not a length line" "" judge
    head -c 41943041 /dev/zero > "$work/stdin"
    check "too long an input" 2 "refused: input too long" "" judge
    echo "refused: input too long" > "$work/expected"
    same "too long an input" "$work/expected"
    {
        printf 'length 3\nopen 3 1\n'
        yes $'X resign normal\nO reject' | head -n 1000000
    } > "$work/stdin"
    check "a record that is full" 2 "refused at line 1000002: record full" "" judge
}

# try_judging (all of these)
try_judging() {
    try_help
    try_transcripts
}
