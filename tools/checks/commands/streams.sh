# What becomes of a command whose input can't be read, or whose output can't be written. To be sourced, behind files.sh,
# saves.sh, older_saves.sh and lists.sh.

reason='bg_relay: the output could not be written: '

# try_folder_as_input (a folder can be opened, and not be read)
try_folder_as_input() {
    status=0
    "$program" judge < "$work" > "$work/stdout" 2> "$work/stderr" || status=$?
    judge_run "a folder as input" "$status" 1 "" "bg_relay: the input could not be read: "
}

# unwritable NAME STATUS DEVICE-OF-STDOUT DEVICE-OF-STDERR WORD-ON-STDERR ARGUMENT.. (a stream that takes nothing)
unwritable() {
    local name=$1 wanted=$2 onto=$3 errors=$4 word=$5 status=0
    shift 5
    : > "$work/stdout"
    : > "$work/stderr"
    "$program" "$@" < "$top/examples/opening.txt" > "$onto" 2> "$errors" || status=$?
    judge_run "$name" "$status" "$wanted" "" "$word"
}

# try_closed_pipes (where nobody reads any more what is printed, nothing is said: the list is more than a pipe holds)
try_closed_pipes() {
    for _ in {1..5000}; do echo "$top/examples/opening.txt"; done > "$work/names"
    {
        status=0
        "$program" check --files-from "$work/names" 2> "$work/stderr" || status=$?
        echo "$status" > "$work/status"
    } | head -n 1 > "$work/stdout"
    judge_run "check | head" "$(cat "$work/status")" 1 "opening.txt: ok " ""
    rm -f "$work/status"
    # (its only reader has ended)
    mkfifo "$work/pipe"
    true < "$work/pipe" &
    {
        wait "$!"
        "$program" --help 2> "$work/stderr" || echo $? > "$work/status"
    } > "$work/pipe"
    rm "$work/pipe"
    : > "$work/stdout"
    judge_run "help into a closed pipe" "$(cat "$work/status" 2> /dev/null || echo 0)" 1 "" ""
}

# try_full_devices (a full device is said, where there is one)
try_full_devices() {
    if [ ! -w /dev/full ]; then return; fi
    unwritable "judge onto a full device" 1 /dev/full "$work/stderr" "$reason" judge
    unwritable "show onto a full device" 1 /dev/full "$work/stderr" "$reason" show "$work/save" "$work/missing"
    unwritable "a folder onto a full device" 1 /dev/full "$work/stderr" "$reason" show "$work/ages"
    unwritable "a list onto a full device" 1 /dev/full "$work/stderr" "$reason" list "$work/lists/halls"
    unwritable "a transcript onto a full device" 1 /dev/full "$work/stderr" "$reason" \
        show --transcript "$work/save" "$work/missing"
    unwritable "check onto a full device" 1 /dev/full "$work/stderr" "$reason" check - "$work/files/bad"
    unwritable "a page onto a full device" 1 /dev/full "$work/stderr" "$reason" page
    unwritable "a picture onto a full device" 1 /dev/full "$work/stderr" "$reason" picture
    head -c 32 /dev/zero > "$work/dice"
    unwritable "dice onto a full device" 1 /dev/full "$work/stderr" "$reason" dice --secret "$work/dice"
    unwritable "a match file onto a full device" 1 /dev/full "$work/stderr" "$reason" export
    cp "$top/examples/scripts/turn_with_a_watcher.script" "$work/script"
    status=0
    "$program" script --length 1 --watchers 1 < "$work/script" > /dev/full 2> "$work/stderr" || status=$?
    : > "$work/stdout"
    judge_run "script onto a full device" "$status" 1 "" "$reason"
    unwritable "sim onto a full device" 1 /dev/full "$work/stderr" "$reason" \
        sim --seed 1 --length 1 --watchers 0 --steps 9
    mkdir "$work/played"
    unwritable "loop onto a full device" 1 /dev/full "$work/stderr" "$reason" \
        loop --seed 1 --length 1 --rounds 1 --dir "$work/played"
    unwritable "help onto a full device" 1 /dev/full "$work/stderr" "$reason" --help
    unwritable "wrong arguments, with nowhere to say so" 2 "$work/stdout" /dev/full "" walk
    unwritable "an empty name, with nowhere to say so" 2 "$work/stdout" /dev/full "" show "" ""
    unwritable "a folder as a file, with nowhere to say so" 1 "$work/stdout" /dev/full "" show "$work" "$work/save"
}

# try_link (the script works through a symbolic link)
try_link() {
    ln -s "$program" "$work/linked"
    status=0
    "$work/linked" judge < "$top/examples/opening.txt" > "$work/stdout" 2> "$work/stderr" || status=$?
    judge_run "through a link" "$status" 0 "ok 2" ""
}

# try_streams (all of these)
try_streams() {
    try_folder_as_input
    try_closed_pipes
    try_full_devices
    try_link
}
