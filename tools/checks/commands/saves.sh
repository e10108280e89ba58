# What `show` says of the files and folders that parties have saved. To be sourced.

# The claim of a turn of four steps, and entries of ten bytes: the longest text of each version. Its first entry does
# not follow.
turn='\x06\x04\x06\x05\x05\x04\x04\x03\x03\x02'

# try_saved_files (files of both versions: save and other in $work)
try_saved_files() {
    check "an argument that is no text" 2 "" "not valid UTF-8" show "$(printf '\xff')" "$work/none"
    cp "$top/examples/party-0.0" "$work/save"
    printf 'BGS0' > "$work/other"
    check "a saved file" 0 "file 0: party 0 match 1 length 1 save 2 entries 2" "" show "$work/save" "$work/missing"
    {
        printf 'file 0: party 0 match 1 length 1 save 2 entries 2\nfile 1: short\n'
        head -n 7 "$top/examples/opening.expected"
    } > "$work/shown"
    same "a saved file" "$work/shown"
    check "a saved file of version 1" 0 "file 0: party 0 match 1 length 1 save 2 entries 2" "" \
        show "$top/examples/version-1/party-0.0" "$work/missing"
    same "a saved file of version 1" "$work/shown"
    check "a missing file" 0 "file 1: short" "" show "$work/save" "$work/missing"
}

# longest VERSION FRONT LENGTH COUNT (a save as long as can be, and longer ones; FRONT: what stands between the match and
# the claim, and then its number)
longest() {
    local more
    {
        printf 'BGS%s\x01\x00\x00\x00\x00\x00\x00\x00\x01\x01' "$1"
        printf "$2$turn$3"
        yes "$(printf "$turn")" | head -n "$4" | tr -d '\n'
    } > "$work/longest"
    check "the longest text of version $1" 2 "file 0: illegal entry 1" "$work/missing is not there" show "$work/longest" "$work/missing"
    for more in one two; do
        printf '\x00' >> "$work/longest"
        check "more bytes, $more, in version $1" 2 "file 0: extra bytes" "$work/missing is not there" show "$work/longest" "$work/missing"
    done
}

# try_long_saves (the longest of each version, a record that is full, and a file of a gigabyte, which is not read whole)
try_long_saves() {
    longest 1 '\x00\x00\x00\x02\x01\x00\x01' '\xff\xff' 65535
    longest 2 '\x01\x00\x00\x00\x02\x01\x00\x00\x00\x01' '\x00\x0f\x42\x40' 1000000
    # As many entries as there can be: an opening, and offers to resign, all but the last rejected.
    {
        printf 'BGS2\x00\x00\x00\x00\x00\x00\x00\x00\x01\x03\x01\x00\x00\x00\x01\x00\x00\x0f\x42\x40\x01\x03\x01'
        yes "$(printf '\x07\x01\x09')" | head -n 499999 | tr -d '\n'
        printf '\x07\x01'
    } > "$work/full"
    check "a full record" 0 "file 0: party 0 match 1 length 3 save 1 entries 1000000" "" show "$work/full" "$work/missing"
    truncate -s 1G "$work/longest"
    run_in_little_memory show "$work/longest" "$work/missing"
    judge_run "a file of a gigabyte" "$status" 2 "file 0: extra bytes" "$work/missing is not there"
}

# try_unread_saves (what does not load, and what is no file)
try_unread_saves() {
    check "no file that loads" 2 "file 1: bad magic" "not there" show "$work/missing" "$work/other"
    said "no file that loads" "bg_relay: $work/missing is not there, and counts as empty: name a file that is there"
    : > "$work/no-byte"
    check "an empty file" 2 "file 0: short" "" show "$work/no-byte" "$work/other"
    check "a folder as a file" 1 "" "$work could not be read: " show "$work" "$work/save"
    check "a folder as the second file" 1 "" "$work could not be read: " show "$work/save" "$work"
    check "a file behind a file" 1 "" "$work/save/more could not be read: " show "$work/save/more" "$work/save"
    check "an empty name" 2 "" "bg_relay: the name of a file is empty" show "" "$work/save"
    check "an empty second name" 2 "" "bg_relay: the name of a file is empty" show "$work/save" ""
}

# try_refused_names (names that would clear the screen, and how many there may be)
try_refused_names() {
    check "a name that would clear the screen" 1 "" "$work/save/\\u{1b}[2Jo'hara could not be read: " \
        show "$work/save/${escape}o'hara" "$work/save"
    check "a second name that would" 1 "" "$work/save/\\u{1b}[2J could not be read: " show "$work/save" "$work/save/$escape"
    check "a command that would clear the screen" 2 "" "unrecognized subcommand '\\u{1b}[2Jwalk'" "${escape}walk"
    check "a value that would clear the screen" 2 "" "invalid value '\\u{1b}[2J'" \
        loop --seed "$escape" --length 1 --rounds 1 --dir "$work"
    check "help of show" 0 "Usage: bg_relay show" "" show --help
    check "one file alone" 2 "" "bg_relay: $work/save is no folder: name the two files of a party, or a folder" show "$work/save"
    check "no file and no folder" 2 "" "required" show
    check "three files" 2 "" "unexpected argument" show "$work/save" "$work/missing" "$work/save"
}

# try_saved_transcripts (the transcripts of saved files)
try_saved_transcripts() {
    head -n 3 "$top/examples/opening.txt" > "$work/expected"
    check "the transcript of a saved file" 0 "open 3 1" "" show --transcript "$work/save" "$work/missing"
    same "the transcript of a saved file" "$work/expected"
    check "the transcript of the second file" 0 "open 3 1" "" show "$work/other" "$work/save" --transcript
    same "the transcript of the second file" "$work/expected"
    check "the transcript of a saved file of version 1" 0 "open 3 1" "" \
        show --transcript "$top/examples/version-1/party-0.0" "$work/missing"
    same "the transcript of a saved file of version 1" "$work/expected"
    check "the transcript of no file that loads" 2 "" "bg_relay: file 1: bad magic" \
        show --transcript "$work/missing" "$work/other"
    said "the transcript of no file that loads" \
        "bg_relay: $work/missing is not there, and counts as empty: name a file that is there" \
        "bg_relay: file 0: short" "bg_relay: file 1: bad magic"
    check "the transcript of a folder" 2 "" "required" show --transcript "$work"
    check "the transcript of a folder as a file" 1 "" "$work could not be read: " show --transcript "$work" "$work/save"
    check "the transcript of an empty name" 2 "" "bg_relay: the name of a file is empty" show --transcript "$work/save" ""
    "$program" show --transcript "$work/full" "$work/missing" > "$work/long"
    check "the transcript of a full record" 0 "long: ok 1000000, not over" "bg_relay: 1 ok, 0 refused" check "$work/long"
    rm "$work/long"
}

# try_folders_without_saves (a folder that has none, and what is no folder)
try_folders_without_saves() {
    mkdir "$work/nothing"
    cat > "$work/expected" << 'END'
party-0.0: empty
party-0.1: empty
party-1.0: empty
party-1.1: empty
party-2.0: empty
party-2.1: empty
party 0: no save
party 1: no save
party 2: no save
END
    check_lines "a folder without saved files" 2 show "$work/nothing"
    mkdir "$work/nothing/party-1.1"
    check "a folder as one of six files" 1 "" "bg_relay: $work/nothing/party-1.1 could not be read: " show "$work/nothing"
    check "what is missing, to show" 2 "" "bg_relay: $work/none is not there: name the two files of a party, or a folder" \
        show "$work/none"
    check "a file in the place of a folder, to show" 2 "" "bg_relay: $work/save/below can't be used: " \
        show "$work/save/below"
}

# try_folder_of_a_referee (by its match file, it says nothing of seats that have theirs elsewhere)
try_folder_of_a_referee() {
    mkdir "$work/lone"
    echo "match 1 length 1 rules 1 port 4000" > "$work/lone/match"
    printf 'party-0.0: empty\nparty-0.1: empty\nparty 0: no save\n' > "$work/expected"
    check_lines "a referee's folder without a save" 2 show "$work/lone"
    cp "$work/save" "$work/lone/party-0.0"
    {
        printf 'party-0.0: party 0 match 1 length 1 save 2 entries 2\nparty-0.1: empty\nparty 0: 2 entries\n'
        head -n 7 "$top/examples/opening.expected"
    } > "$work/expected"
    check_lines "a referee's folder" 0 show "$work/lone"
    cp "$top/examples/version-1/loop/party-2.0" "$work/lone"
    check "a referee's folder with a save of a seat" 0 "party-1.1: empty" "" show "$work/lone"
    rm "$work/lone/match" "$work/lone/party-2.0"
    check "a folder of saves without a match file" 0 "party-1.1: empty" "" show "$work/lone"
}

# try_saves (all of these)
try_saves() {
    try_saved_files
    try_long_saves
    try_unread_saves
    try_refused_names
    try_saved_transcripts
    try_folders_without_saves
    try_folder_of_a_referee
}
