# What other programs write into match files and transcripts: how their matches end, headers, and marks. To be
# sourced, behind files.sh and rows.sh.

# try_dialects (match files in the spellings of other programs, a file each)
try_dialects() {
    cp "$top/examples/match_files/dialects/expected.txt" "$work/expected"
    (cd "$top/examples/match_files/dialects" && "$program" check *.mat > "$work/stdout" 2>> "$work/stdout" || true)
    same "match files in the spellings of other programs" "$work/expected"
}

# make_match_files (matches that end, break off or go on: ada.mat, rows.mat, games.mat and running)
make_match_files() {
    cat > ada.mat << 'END'
; [Site "Łódź"]
;[EVENT  "World "Cup""]
 [EventDate "2020.01.02"]
; [Event "a second one"]
; [Round "3"]
; [Player 2 ""]
 2 point match

 Game 1
 Ada : 1 : 0                    Zoe B : 0
  1) 31: 8/5 6/5                 Doubles
  2)  Drops                       Wins 1 point

 Game 2
 Ada : 0                        Zoe B : 1
END
    cp ada.mat rows.mat
    echo '  1) 31: 8/5 6/5' >> rows.mat
    head -n 12 ada.mat > games.mat
    head -n 4 "$top/examples/whole_match.txt" > running
}

# try_ends (how matches end, where they break off, and what is said of them beside the games)
try_ends() {
    cat > "$work/expected" << 'END'
whole: ok 360, O wins 7-5
running: ok 3, not over
games.mat: ok 4, not over
ada.mat: ok 4, cut within a game
rows.mat: ok 6, cut within a game
bg_relay: 5 ok, 0 refused
END
    check_lines "how matches end" 0 check whole running games.mat ada.mat rows.mat
    check "rows of headers" 0 '"state":"cut"' "bg_relay: 1 ok" check --format json ada.mat
    grep -o '"name_x".*' "$work/stdout" > "$work/told"
    echo '"name_x":"Ada : 1","name_o":"Zoe B","date":"2020.01.02","event":"World \"Cup\"","place":"Łódź"}' > "$work/expected"
    cp "$work/told" "$work/stdout"
    same "rows of headers" "$work/expected"
}

# try_malformed_headers (headers that are too long, have control characters or are no text)
try_malformed_headers() {
    local text unseen
    for text in "$long_name" "$(printf 'a\033b')" "$(printf 'a\342\200\256b')" "$(printf 'Jos\351')" "${long_name#a}"; do
        printf '; [Event "%s"]\n; [Date "x"]\n 1 point match\n' "$text" > event.mat
        "$program" check --format tsv event.mat 2> /dev/null | tail -n 1 | cut -f 22-
    done > "$work/stdout"
    unseen="line 1: the event has a control character, or one that changes the direction of a text"
    cat > "$work/expected" << END
x${tab}${tab}${tab}line 1: the event has more than 64 bytes, or is not UTF-8
x${tab}${tab}${tab}$unseen
x${tab}${tab}${tab}$unseen
x${tab}${tab}${tab}line 1: the event has more than 64 bytes, or is not UTF-8
x${tab}${long_name#a}${tab}${tab}
END
    same "headers that are malformed" "$work/expected"
}

# try_marks (what other programs write in a transcript is met, and said of the line that is refused alone)
try_marks() {
    local name
    printf '\357\273\277length 1\n' > mark
    printf '\377\376l\000e\000' > wide
    printf 'length 1\nopen 3 1\r\n# nothing\n' > feed
    printf 'length 1\nopen 3 1\n; nothing\r\n' > comment
    printf 'length 1\nopen 3 3\nX move 8-5 6-5\r' > equal
    printf 'length 1\nopen 3 1\r' > last
    "$program" check --format tsv mark wide feed comment equal last 2> /dev/null | cut -f 1,19 > "$work/stdout"
    cat > "$work/expected" << END
file${tab}met
mark${tab}byte order mark at the start of the line
wide${tab}byte order mark of UTF-16 at the start of the line
feed${tab}carriage return at the end of the line
comment${tab}comment
equal${tab}
last${tab}carriage return at the end of the line
END
    same "what is met in transcripts" "$work/expected"
    for name in mark:1 wide:1 feed:2 comment:3 last:2; do
        cp "${name%:*}" "$work/stdin"
        check "what is met in ${name%:*}" 2 "refused at line ${name#*:}: " "bg_relay: met at line ${name#*:}: " judge
    done
    cp equal "$work/stdin"
    check "what is not met" 2 "refused at line 2: equal opening" "" judge
    : > "$work/stdin"
}

# try_spellings (all of these)
try_spellings() {
    cd "$work/files"
    try_dialects
    make_match_files
    try_ends
    try_malformed_headers
    try_marks
    cd "$OLDPWD"
}
