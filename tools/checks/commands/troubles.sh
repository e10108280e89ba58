# What `loop` says of a folder that it can't use, or can't write to. To be sourced, behind loops.sh.

# try_second_process (two processes over one folder. The one that begins second reads no file, and so knows nothing of
# another match)
try_second_process() {
    mkdir "$work/locked"
    ln -s "$work/locked" "$work/alias"
    "$program" loop --seed 7 --length 99 --rounds 1000000 --dir "$work/locked" > "$work/first" 2>&1 &
    beside=$!
    for _ in $(seq 3000); do
        [ -e "$work/locked/party-0.1" ] && break
        sleep 0.1
    done
    check "a second process" 1 "" "another process" loop --seed 7 --length 99 --rounds 1 --dir "$work/locked"
    said "a second process" \
        "bg_relay: another process plays over $work/locked: end it first; \`fuser $work/locked\` names it"
    check "a second process, another match" 1 "" "another process" loop --seed 8 --length 1 --rounds 0 --dir "$work/alias"
    said "a second process, another match" \
        "bg_relay: another process plays over $work/alias: end it first; \`fuser $work/alias\` names it"
    kill -9 "$beside" 2> /dev/null || true
    wait "$beside" 2> /dev/null || true
    beside=
    if [ -s "$work/first" ]; then wrong "the first process ended: $(head -n 3 "$work/first")"; else right; fi
    check "after the first process was killed" 0 "party 0: " "" loop --seed 7 --length 99 --rounds 1 --dir "$work/locked"
    if [ "$(ls -A "$work/locked" | tr '\n' ' ')" = "party-0.0 party-0.1 party-1.0 party-1.1 party-2.0 party-2.1 " ]; then
        right
    else
        wrong "other files in the folder: $(ls -A "$work/locked")"
    fi
}

# try_unsaved (no file may grow, so that no save succeeds. The output goes into pipes, which have no such limit)
try_unsaved() {
    local party
    mkdir "$work/unsaved"
    {
        (
            trap '' XFSZ
            ulimit -f 0
            exec "$program" loop --seed 7 --length 1 --rounds 3 --dir "$work/unsaved" 2>&1 >&3
        ) | cat > "$work/stderr"
    } 3>&1 | cat > "$work/stdout"
    judge_run "no save succeeds" 0 0 "party 3: 0 entries" "no save of party"
    for party in 0 1 2; do
        echo "bg_relay: $work/unsaved/party-$party.1 could not be written"
    done > "$work/expected"
    for party in 0 1 2; do
        echo "bg_relay: no save of party $party succeeded"
    done >> "$work/expected"
    sed 's/ written: .*/ written/' "$work/stderr" > "$work/stdout"
    same "what is said where no save succeeds" "$work/expected"
}

# try_damaged_folder (saves that are damaged, and a folder in the place of one)
try_damaged_folder() {
    printf B > "$work/folder/party-0.0"
    printf B > "$work/folder/party-0.1"
    check "a damaged folder" 1 "" "restore fault: damaged" loop --seed 7 --length 1 --rounds 1 --dir "$work/folder"
    said "a damaged folder" \
        "bg_relay: the saves of the referee in $work/folder are damaged: \`bg_relay show $work/folder\` says how" \
        "restore fault: damaged"
    mkdir -p "$work/taken/party-0.0"
    check "a folder in the place of a file" 1 "" "bg_relay: $work/taken/party-0.0 could not be read: " \
        loop --seed 7 --length 1 --rounds 1 --dir "$work/taken"
    if [ "$(tail -n 1 "$work/stderr")" = "restore fault: device" ]; then
        right
    else
        wrong "a folder in the place of a file: $(cat "$work/stderr")"
    fi
}

# try_refused_folders (what is no folder)
try_refused_folders() {
    check "a folder that is missing" 2 "" "bg_relay: $work/none is no folder: make it first" \
        loop --seed 7 --length 1 --rounds 1 --dir "$work/none"
    check "a missing folder that would clear the screen" 2 "" "bg_relay: $work/\\u{1b}[2J is no folder: make it" \
        loop --seed 7 --length 1 --rounds 1 --dir "$work/$escape"
    check "a file as a folder" 2 "" "bg_relay: $work/stdin is no folder" \
        loop --seed 7 --length 1 --rounds 1 --dir "$work/stdin"
    check "an empty name of a folder" 2 "" "bg_relay: the name of a folder is empty" loop --seed 7 --length 1 --rounds 1 --dir ""
}

# try_few_files (the program itself: the script before it needs open files of its own)
try_few_files() {
    mkdir "$work/sockets"
    : > "$work/stdout"
    status=0
    (ulimit -n 5 && exec "$binary" loop --seed 7 --length 1 --rounds 1 --dir "$work/sockets") 2> "$work/stderr" || status=$?
    judge_run "too few open files" "$status" 1 "" "bg_relay: no socket for party "
    if [ -z "$(ls "$work/sockets")" ]; then right; else wrong "too few open files: a file was made"; fi
}

# try_arguments_of_loop (no folder, no rounds, and numbers that can't be)
try_arguments_of_loop() {
    check "no folder" 2 "" "--dir" loop --seed 7 --length 1 --rounds 1
    check "no rounds" 2 "" "--rounds" loop --seed 7 --length 1 --dir "$work/folder"
    check "a match over sockets to 0 points" 2 "" "invalid value '0'" loop --seed 7 --length 0 --rounds 1 --dir "$work/folder"
    check "too many rounds" 2 "" "invalid value '1000001'" \
        loop --seed 7 --length 1 --rounds 1000001 --dir "$work/folder"
    check "help of loop" 0 "Usage: bg_relay loop" "" loop --help
}

# try_troubles (all of these)
try_troubles() {
    try_second_process
    try_unsaved
    try_damaged_folder
    try_refused_folders
    try_few_files
    try_arguments_of_loop
}
