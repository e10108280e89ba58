# Pictures of standings and pages of matches, made by `picture` and `page`. To be sourced.

# try_pictures (a picture, with and without words)
try_pictures() {
    head -n 60 "$top/examples/whole_match.txt" > "$work/stdin"
    check "a picture" 0 "<svg " "" picture
    same "a picture" "$top/examples/board.svg"
    check "a picture by what is usual" 0 "<svg " "" picture --numbering mover
    same "a picture by what is usual" "$top/examples/board.svg"
    check "a picture with words" 0 "<text x='0' y='580'>X: Anna &amp; A</text><text x='0' y='632'>Cup, Basel, 2026-11-28</text>" \
        "" picture --name-x "Anna & A" --event Cup --place Basel --date 2026-11-28
    check "a picture with a name that is none" 2 "" "bg_relay: --name-o is refused: a name has 1 to 64 bytes of UTF-8" \
        picture --name-o ""
}

# try_titles (a page, with a title, an occasion or names)
try_titles() {
    check "a page with its occasion" 0 "<title>Anna against Otto, Cup, 2026-11-28</title>" "" \
        page --name-x Anna --name-o Otto --event Cup --date 2026-11-28
    check "a page" 0 "<title>Backgammon match</title>" "" page
    same_count "a page" "<li " 60
    same_count "a page, which no browser shows anew" "http-equiv" 0
    check "a page with a title" 0 "<title>Anna &amp; &lt;Otto&gt;</title>" "" page --title "Anna & <Otto>" --numbering X
    check "a page without a title" 0 "<title></title>" "" page --title ""
}

# try_names_on_pages (names from options and from a match file)
try_names_on_pages() {
    printf 'match 7 length 3 rules 1 port 4000\nname-x Anna & "<b>"\nname-o \xc3\x96tto\n' > "$work/named"
    check "a page with names" 0 "<title>Anna &amp; &quot;&lt;b&gt;&quot; against Ötto</title>" "" page --match "$work/named"
    same_count "a page with names: X" "<p class='name'>X: <bdi>Anna &amp; &quot;&lt;b&gt;&quot;</bdi></p>" 1
    same_count "a page with names: O" "<p class='name'>O: <bdi>Ötto</bdi></p>" 1
    check "a page with names that are given" 0 "<title>Ada against Ötto</title>" "" page --match "$work/named" --name-x Ada
    check "a page with a name that is none" 2 "" "bg_relay: --name-o is refused: a name has 1 to 64 bytes of UTF-8" \
        page --name-o ""
    check "a page with names and a title" 0 "<title>Cup</title>" "" page --match "$work/named" --title Cup
    sed -i '/name-o/d' "$work/named"
    check "a page with one name" 0 "<title>Backgammon match</title>" "" page --match "$work/named"
    echo >> "$work/named"
    check "a page by no match file" 2 "" "bg_relay: $work/named is no match file" page --match "$work/named"
    check "a page by a match file that is missing" 1 "" "bg_relay: $work/none could not be read" page --match "$work/none"
}

# try_whole_match (the games, entries and results of a page)
try_whole_match() {
    local game=0 result
    cp "$top/examples/whole_match.txt" "$work/stdin"
    check "a page of a whole match" 0 "O wins the match" "" page
    same_count "a page of a whole match: starts" "<li id='start" 6
    same_count "a page of a whole match: entries" "<li id='p" 360
    same_count "a page of a whole match: results" "<li id='result" 6
    for result in "O wins a gammon, 4 points; X 0, O 4" "O wins by a drop of the double, 1 point; X 0, O 5" \
        "X wins a single game by resignation, 2 points; X 2, O 5" "O wins by a drop of the double, 1 point; X 2, O 6" \
        "X wins a backgammon, 3 points; X 5, O 6" "O wins a single game, 1 point; X 5, O 7; O wins the match"; do
        game=$((game + 1))
        same_count "a page of a whole match: result $game" "<a href='#result$game'>result<span>: $result</span></a>" 1
    done
}

# try_numberings (whose numbers points have)
try_numberings() {
    printf 'length 3\nopen 1 3\nO move 8-5 6-5\nO roll 1 2\n' > "$work/stdin"
    check "a picture in a mover's numbers" 2 "" "bg_relay: the transcript: refused at line 4: wrong player: O roll 1 2" picture
    printf 'length 3\nopen 1 3\n' > "$work/stdin"
    check "a picture in the mover's numbers" 0 "; points as O counts" "" picture
    check "a picture in X's numbers" 0 "; points as X counts" "" picture --numbering X
    check "a page in X's numbers" 0 "; points as X counts" "" page --numbering X
}

# try_refused_pages (transcripts and arguments that are refused)
try_refused_pages() {
    local command
    for command in page picture; do
        printf 'length 1\nopen 3 1\nX move 8-5\n' > "$work/stdin"
        check "$command of a refused transcript" 2 "" \
            "bg_relay: the transcript: refused at line 3: more can be played: X move 8-5" "$command"
        printf '\x89PNG\r\n\x1a\n\0\0\0' > "$work/stdin"
        check "$command of bytes" 2 "" "bg_relay: the transcript: refused at line 1: not a length line: \\x89PNG\\r" "$command"
        : > "$work/stdin"
        check "$command of nothing" 2 "" "bg_relay: the transcript: refused at line 1: not a length line" "$command"
        head -c 100000000 /dev/zero > "$work/stdin"
        check "$command of 100000000 bytes" 2 "" "bg_relay: the transcript: refused: input too long" "$command"
        : > "$work/stdin"
        check "$command of a file" 2 "" "this command reads the standard input: bg_relay $command < FILE" \
            "$command" "$top/examples/opening.txt"
        check "$command in O's numbers" 2 "" "invalid value 'O'" "$command" --numbering O
        check "help of $command" 0 "Usage: bg_relay $command" "" "$command" --help
    done
}

# try_pages (all of these)
try_pages() {
    try_pictures
    try_titles
    try_names_on_pages
    try_whole_match
    try_numberings
    try_refused_pages
}
