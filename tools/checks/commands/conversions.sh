# What `import` makes of a match file, and `export` of a transcript, each read from the standard input. To be sourced.

# try_match_files (a match file as a transcript, by both rules, and back)
try_match_files() {
    cp "$top/examples/match_files/other_program.mat" "$work/stdin"
    check "a match file" 0 "length 1" "" import
    same "a match file" "$top/examples/match_files/other_program.txt"
    sed '1s/$/ rules 2/' "$top/examples/match_files/other_program.txt" > "$work/expected"
    check "a match file by the second rules" 0 "length 1 rules 2" "" import --rules 2
    same "a match file by the second rules" "$work/expected"
    cp "$top/examples/match_files/other_program.txt" "$work/stdin"
    check "a transcript as a match file" 0 " 1 point match" "" export
    awk '/^## /{ shown = $0 == "## Match files of other programs" } shown && /^```/ { blocks++; next } shown && blocks == 1' \
        "$top/docs/FORMATS.md" > "$work/expected"
    same "a transcript as a match file" "$work/expected"
}

# check_lines_of_match_file NAME WORDS (check says ok WORDS of the match file that was written last)
check_lines_of_match_file() {
    printf '%s: ok %s\nbg_relay: 1 ok, 0 refused\n' "$work/written" "$2" > "$work/expected"
    check_lines "$1 as one of many" 0 check "$work/written"
}

# try_ways_back (transcripts that are the same behind a way by match files)
try_ways_back() {
    local name result rules
    for name in whole_match turn_that_is_passed; do
        result="cut within a game"
        if [ "$name" = whole_match ]; then result="O wins 7-5"; fi
        cp "$top/examples/$name.txt" "$work/stdin"
        check "$name as a match file" 0 " point match" "" export
        mv "$work/stdout" "$work/written"
        cp "$work/written" "$work/stdin"
        rules=1
        if grep -q 'rules 2$' "$top/examples/$name.txt"; then rules=2; fi
        check "$name from its match file" 0 "length " "" import --rules "$rules"
        same "$name from its match file" "$top/examples/$name.txt"
        check_lines_of_match_file "$name" "$(($(wc -l < "$top/examples/$name.txt") - 1)), $result"
    done
}

# refused_match_file NAME LINE (the standard input is refused so)
refused_match_file() {
    check "$1" 2 "" "bg_relay: the match file: refused at line $2" import
}

# try_refused_movements (a money game, and what can't be played)
try_refused_movements() {
    printf '; a comment\n 0 point match\n' > "$work/stdin"
    refused_match_file "a money game" "2: a money game:  0 point match"
    printf ' 1 point match\n\n Game 1\n A : 0 B : 0\n 1) 31: 8/5 6/4\n' > "$work/stdin"
    refused_match_file "a movement that is none" "5: no legal turn has this movement:  1) 31: 8/5 6/4"
    printf ' 1 point match\n\n Game 1\n A : 0 B : 0\n 1) Drops\n' > "$work/stdin"
    refused_match_file "a drop out of turn" "5: out of turn:  1) Drops"
}

# try_rules_of_match_files (what one of the rules allows, and the other one does not)
try_rules_of_match_files() {
    # X can't enter, and resigns in place of his turn: by the first rules that is good; by the second the turn is passed.
    printf ' 1 point match\n\n Game 1\n A : 0 B : 0\n 1) 21: 13/11 6/5  43: 24/20* 13/10\n 2) 66:  Wins 1 point\n' \
        > "$work/stdin"
    check "a resignation in place of a pass" 0 "X resign normal" "" import
    printf '%s\n' "length 1" "open 2 1" "X move 13-11 6-5" "O roll 4 3" "O move 24-20 13-10" "X roll 6 6" "X resign normal" \
        "O accept" > "$work/expected"
    same "a resignation in place of a pass" "$work/expected"
    check "a resignation in place of a pass, by the second rules" 2 "" "bg_relay: the match file" import --rules 2
    said "a resignation in place of a pass, by the second rules" \
        "bg_relay: the match file: refused at line 6: wrong phase:  2) 66:  Wins 1 point"
    printf ' 1 point match\n\n Game 2\n' > "$work/stdin"
    check "game 2 at first, by the second rules" 2 "" "bg_relay: the match file" import --rules 2
    said "game 2 at first, by the second rules" "bg_relay: the match file: refused at line 3: not the next game:  Game 2"
}

# try_odd_match_files (colons in names, no entry, and bytes that are no match file)
try_odd_match_files() {
    printf ' 1 point match\n\n Game 1\n A: b : 0 : 0 B:1 : 0\n 1) 31: 8/5 6/5\n' > "$work/stdin"
    check "players with colons in their names" 0 "X move 8-5 6-5" "" import
    printf ' 1 point match\n\n Game 1\n' > "$work/stdin"
    check "a match file without an entry" 0 "length 1" "" import
    printf 'length 1\nopen 3 1\n' > "$work/stdin"
    refused_match_file "a transcript" "1: no length of the match: length 1"
    printf '\x7fELF\x02\x01\0\x1b[2J' > "$work/stdin"
    refused_match_file "bytes" "1: no length of the match: \\x7fELF\\x02\\x01\\x00\\x1b[2J"
    : > "$work/stdin"
    refused_match_file "nothing" "1: no length of the match"
    head -c 30000000 /dev/zero | tr '\0' a > "$work/stdin"
    refused_match_file "a line of 30000000 bytes" "1: no length of the match: aaa"
    { printf ' 1 point match\n'; head -c 30000000 /dev/zero | tr '\0' ' '; } > "$work/stdin"
    check "blanks without an end" 0 "length 1" "" import
    head -c 100000000 /dev/zero > "$work/stdin"
    check "100000000 bytes as a match file" 2 "" "bg_relay: the match file: refused: input too long" import
}

# try_cut_match_files (each beginning of a match file is a good transcript, or refused)
try_cut_match_files() {
    local size length refusal='^bg_relay: the match file: refused at '
    size=$(wc -c < "$top/examples/match_files/other_program.mat")
    for ((length = 0; length < size; length++)); do
        head -c "$length" "$top/examples/match_files/other_program.mat" > "$work/stdin"
        run import
        if [ "$status" -eq 0 ] && [ ! -s "$work/stderr" ] && "$program" judge < "$work/stdout" > "$work/judged"; then
            right
        elif [ "$status" -eq 2 ] && [ ! -s "$work/stdout" ] && grep -q "$refusal" "$work/stderr"; then
            right
        else
            wrong "a match file that is cut after $length bytes: status $status: $(cat "$work/stderr")"
        fi
    done
}

# try_arguments_of_conversions (a refused transcript, files as arguments, and help)
try_arguments_of_conversions() {
    local command
    printf 'length 1\nopen 3 1\nX move 8-5\n' > "$work/stdin"
    check "a refused transcript as a match file" 2 "" \
        "bg_relay: the transcript: refused at line 3: more can be played: X move 8-5" export
    : > "$work/stdin"
    for command in import export; do
        check "$command of a file" 2 "" "this command reads the standard input: bg_relay $command < FILE" \
            "$command" "$top/examples/opening.txt"
        check "help of $command" 0 "Usage: bg_relay $command" "" "$command" --help
    done
}

# try_conversions (all of these)
try_conversions() {
    try_match_files
    try_ways_back
    try_refused_movements
    try_rules_of_match_files
    try_odd_match_files
    try_cut_match_files
    try_arguments_of_conversions
}
