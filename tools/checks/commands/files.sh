# What `check` says of files: good and refused ones, lists of them, and what can't be read. To be sourced.

# make_files (the transcripts good, bad, other and empty in the folder files; the parts that go on with them run there)
make_files() {
    : > "$work/stdin"
    mkdir "$work/files"
    cd "$work/files"
    printf 'length 1\nopen 3 1\nX move 8-5 6-5\n' > good
    printf 'length 1\nopen 3 1\nX move 8-5' > bad
    printf 'length 1\r\nopen 3 1\r\n' > other
    : > empty
}

# try_good_and_bad_files (what is told of each, and of how many)
try_good_and_bad_files() {
    cat > "$work/expected" << 'END'
good: ok 2, not over
./good: ok 2, not over
bg_relay: 2 ok, 0 refused
END
    check_lines "files that are good" 0 check good ./good
    cat > "$work/expected" << 'END'
good: ok 2, not over
bad: refused at line 3: more can be played: X move 8-5
empty: refused at line 1: not a length line
other: refused at line 1: not a length line: length 1\r
good: ok 2, not over
bg_relay: 2 ok, 3 refused
END
    check_lines "files that are refused, among others" 2 check good bad empty other good
    printf 'good\nbad\nempty\nother\ngood' > "$work/stdin"
    check_lines "a list of files" 2 check --files-from -
    printf 'bad\nempty\nother\ngood\n' > list
    : > "$work/stdin"
    check_lines "a list of files in a file" 2 check --files-from list good
    cat > "$work/expected" << 'END'
bad: refused at line 3: more can be played: X move 8-5
bg_relay: 2 ok, 1 refused
END
    check_lines "only what is refused" 2 check --quiet good bad good
    echo 'bg_relay: 2 ok, 0 refused' > "$work/expected"
    check_lines "nothing is refused" 0 check good --quiet good
}

# try_unread_files (files that are missing, what is no file, and the standard input as one)
try_unread_files() {
    cat > "$work/expected" << 'END'
good: ok 2, not over
./good: ok 2, not over
bg_relay: none could not be read: No such file or directory (os error 2)
bg_relay: 2 ok, 0 refused, 1 not judged
END
    check_lines "a file that is missing" 1 check good none ./good
    cat > "$work/expected" << 'END'
bad: refused at line 3: more can be played: X move 8-5
bg_relay: .. is a folder: --recursive judges the files in it
bg_relay: good/more could not be read: Not a directory (os error 20)
bg_relay: 0 ok, 1 refused, 2 not judged
END
    check_lines "a refused file, and what is no file" 1 check .. bad good/more
    cp bad "$work/stdin"
    cat > "$work/expected" << 'END'
good: ok 2, not over
-: refused at line 3: more can be played: X move 8-5
bg_relay: 1 ok, 1 refused
END
    check_lines "the standard input among files" 2 check good -
}

# try_lists_of_files (lists of files, what is no name of a file, and lists that can't be read)
try_lists_of_files() {
    echo 'bg_relay: 0 ok, 0 refused' > "$work/expected"
    : > "$work/stdin"
    check_lines "a list of no file" 0 check --files-from -
    printf 'good\n\n-\n\xff\x1b\n' > "$work/stdin"
    cat > "$work/expected" << 'END'
good: ok 2, not over
bg_relay: line 2 of the list of files is empty: remove it, or name a file
bg_relay: - could not be read: No such file or directory (os error 2)
bg_relay: \xff\x1b could not be read: its name is not valid UTF-8
bg_relay: 1 ok, 0 refused, 3 not judged
END
    check_lines "names of no file" 1 check --files-from -
    { echo good; head -c 70000 /dev/zero | tr '\0' a; } > "$work/stdin"
    check "a list without an end" 1 "good: ok 2, not over" \
        "bg_relay: line 2 of the list of files has more than 65536 bytes: give each file a line of its own" check --files-from -
    : > "$work/stdin"
    check "a list that is missing" 1 "" "bg_relay: the list of files could not be read: No such file" check --files-from none
    check "a folder as a list" 1 "" "bg_relay: the list of files could not be read: Is a directory" check --files-from .
}

# try_arguments_of_check (no file, empty names, and the standard input named twice)
try_arguments_of_check() {
    check "no file" 2 "" "required" check
    check "no file, but quietly" 2 "" "required" check --quiet
    check "an empty name of a file" 2 "" "bg_relay: the name of a file is empty" check good ""
    check "an empty name of a list" 2 "" "bg_relay: the name of a file is empty" check --files-from ""
    check "the standard input twice" 2 "" "bg_relay: the standard input can be read only once: name - once" check - good -
    check "the standard input as a list and a file" 2 "" "bg_relay: the standard input can be read only once: name - once" \
        check --files-from - -
    check "help of check" 0 "Usage: bg_relay check" "" check --help
}

# try_control_characters (names and lines that would clear the screen)
try_control_characters() {
    cp bad "${escape}o'hara"
    printf '\033[2Jlength\0\n' > controls
    cat > "$work/expected" << 'END'
\u{1b}[2Jo'hara: refused at line 3: more can be played: X move 8-5
controls: refused at line 1: not a length line: \x1b[2Jlength\x00
bg_relay: \u{1b}[2J could not be read: No such file or directory (os error 2)
bg_relay: 0 ok, 2 refused, 1 not judged
END
    check_lines "names and lines that would clear the screen" 1 check "${escape}o'hara" "$escape" controls
}

# try_match_files_among_others (match files of other programs)
try_match_files_among_others() {
    printf '; [Player 1 "X"]\n\n 3 point match\n Game 2\n' > other.mat
    printf '; [Player 1 "X"]\n\n Game 1\n' > no.mat
    : > empty.mat
    cp good good.mat
    cat > "$work/expected" << 'END'
other.mat: refused at line 4: not the next game:  Game 2
no.mat: refused at line 3: no length of the match:  Game 1
empty.mat: refused at line 1: no length of the match
good.mat: ok 2, not over
good: ok 2, not over
bg_relay: 2 ok, 3 refused
END
    check_lines "match files of other programs" 2 check other.mat no.mat empty.mat good.mat good
}

# try_files (all of these)
try_files() {
    make_files
    try_good_and_bad_files
    try_unread_files
    try_lists_of_files
    try_arguments_of_check
    try_control_characters
    try_match_files_among_others
    cd "$OLDPWD"
}
