# What `id` says of the standing of a match, and `dice` of its dice. To be sourced.

# try_ids (IDs of a standing, and of what has none)
try_ids() {
    printf 'length 1\nopen 3 1\n' > "$work/stdin"
    printf '%s\n' "Position ID: 4HPwATDgc/ABMA" "Match ID: cIklAAAAAAAE" \
        "XGID=-b----E-C---eE---c-e----B-:0:0:1:31:0:0:0:1:7" > "$work/expected"
    check "the IDs of a standing" 0 "Position ID" "" id
    same "the IDs of a standing" "$work/expected"
    cp "$top/examples/whole_match.txt" "$work/stdin"
    check "the IDs of a match that is over" 0 "no XGID: the match is over" "" id
    printf 'length 1\nopen 3 3\n' > "$work/stdin"
    check "the IDs of a transcript that is refused" 2 "" "bg_relay: the transcript: refused at line 2: " id
    check "a file named to id" 2 "" "bg_relay: this command reads the standard input: bg_relay id < FILE" id x
}

# try_dice (dice of their secret, of another one, and what is no secret)
try_dice() {
    printf 'length 1\nopen 4 6\n' > "$work/stdin"
    printf 'secret %064d\n' 0 > "$work/dice"
    printf '%s\n' "sha256 66687aadf862bd776c8fc18b8e9f8e20089714856ee233b3902a591d0d5f2925" "1 open 4 6: ok, attempt 0" "ok 1" \
        > "$work/expected"
    check "dice of their secret" 0 "ok 1" "" dice --secret "$work/dice"
    same "dice of their secret" "$work/expected"
    head -c 32 /dev/zero > "$work/dice"
    check "dice by the bytes of a secret" 0 "1 open 4 6: ok, attempt 0" "" dice --secret "$work/dice"
    printf 'length 1\nopen 6 4\n' > "$work/stdin"
    check "dice of another secret" 2 "1 open 6 4: not of this secret, which has 4 6, attempt 0" "" dice --secret "$work/dice"
    printf 'length 1\n' > "$work/stdin"
    check "no dice" 0 "ok 0" "" dice --secret "$work/dice"
    printf 'length 1\nopen 3 3\n' > "$work/stdin"
    check "dice of a transcript that is refused" 2 "" "bg_relay: the transcript: refused at line 2: " dice --secret "$work/dice"
    check "dice by a secret that is missing" 1 "" "$work/missing could not be read: No such file" dice --secret "$work/missing"
    check "dice by a secret without a name" 2 "" "bg_relay: the name of a file is empty" dice --secret ""
    : > "$work/dice"
    check "dice by an empty secret" 2 "" "$work/dice is refused: it is no secret of dice" dice --secret "$work/dice"
    check "dice without a secret" 2 "" "--secret <FILE>" dice
    check "a file named to dice" 2 "" "bg_relay: this command reads the standard input: bg_relay dice --secret FILE < FILE" \
        dice --secret "$work/dice" x
}

# try_standings (all of these)
try_standings() {
    try_ids
    try_dice
}
