# What `loop` plays over sockets and files, and what stands in its folder, which the next call goes on with. To be
# sourced.

entries=0

# try_rounds (no round, and forty; entries is then how many the last party that is shown has saved)
try_rounds() {
    local party
    mkdir "$work/folder"
    check "a match of no round" 0 "party 3: 0 entries" "" loop --seed 7 --length 1 --rounds 0 --dir "$work/folder"
    {
        for party in 0 1 2 3; do echo "party $party: 0 entries"; done
        "$program" script --length 1 --watchers 0 < /dev/null | tail -n 7
    } > "$work/expected"
    same "a match of no round" "$work/expected"
    check "a match over sockets" 0 "party 0: " "" loop --seed 7 --length 1 --rounds 40 --dir "$work/folder"
    for party in 0 1 2; do
        check "what party $party saved" 0 "party $party match 7 length 1 save " "" \
            show "$work/folder/party-$party.0" "$work/folder/party-$party.1"
    done
    entries=$(sed -n 's/^file .* entries \([0-9]*\).*/\1/p' "$work/stdout" | sort -n | tail -n 1)
}

# try_all_saves (the lines of a folder are those of the parties, and each says how far it is behind the first that holds
# most)
try_all_saves() {
    local party
    for party in 0 1 2; do
        "$program" show "$work/folder/party-$party.0" "$work/folder/party-$party.1" |
            sed -n "s/^file \\([01]\\): /party-$party.\\1: /p"
    done > "$work/expected"
    check "a folder of saved files" 0 "party 0: " "" show "$work/folder"
    head -n 6 "$work/stdout" > "$work/first"
    tail -n +7 "$work/stdout" > "$work/second"
    mv "$work/first" "$work/stdout"
    same "the files of a folder" "$work/expected"
    mv "$work/second" "$work/stdout"
    awk -F '[-. ]' '/save/ {
        for (at = 1; at <= NF; at++) { if ($at == "save") save = $(at + 1); if ($at == "entries") entries = $(at + 1) }
        if (!($2 in newest) || save > newest[$2]) { newest[$2] = save; held[$2] = entries }
    } END {
        for (party = 0; party < 3; party++) if (held[party] > held[first + 0]) first = party
        for (party = 0; party < 3; party++) {
            printf "party %d: %d entries", party, held[party]
            if (held[party] < held[first + 0]) printf ", %d behind party %d", held[first + 0] - held[party], first
            print ""
        }
    }' "$work/expected" > "$work/wanted"
    "$program" show "$work/folder/party-0.0" "$work/folder/party-0.1" | tail -n 7 >> "$work/wanted"
    same "who is behind whom in a folder" "$work/wanted"
    "$program" show --transcript "$work/folder/party-0.0" "$work/folder/party-0.1" > "$work/transcript"
    check "the transcript of a match over sockets" 0 "transcript: ok " "bg_relay: 1 ok, 0 refused" check "$work/transcript"
}

# try_later_rounds (the same match goes on behind those entries)
try_later_rounds() {
    local held
    check "the same match, later" 0 "party 0: " "" loop --seed 7 --length 1 --rounds 40 --dir "$work/folder/"
    held=$(sed -n 's/^party 0: \([0-9]*\) entries$/\1/p' "$work/stdout")
    if [ "${held:-0}" -gt "${entries:-0}" ]; then right; else wrong "the same match, later: $held entries, $entries before"; fi
}

# try_other_matches (a folder of another match, to other points or by other rules, or open to others)
try_other_matches() {
    local theirs other
    check "a folder of another match" 1 "" "restore fault: wrong match" \
        loop --seed 8 --length 1 --rounds 1 --dir "$work/folder"
    theirs="bg_relay: $work/folder has saves of the referee of match 7, length 1, rules 1; this call is of match"
    other="give another --dir, or --seed 7 --length 1 --rules 1"
    said "a folder of another match" "$theirs 8, length 1, rules 1: $other" "restore fault: wrong match"
    chmod 750 "$work/folder"
    check "a folder that is open to others" 0 "party 0: " "is open to other users" \
        loop --seed 7 --length 1 --rounds 1 --dir "$work/folder"
    said "a folder that is open to others" "bg_relay: $work/folder is open to other users: \`chmod 700\` closes it"
    chmod 700 "$work/folder"
    check "a folder of a match to other points" 1 "" "restore fault: wrong match" \
        loop --seed 7 --length 2 --rounds 1 --dir "$work/folder"
    said "a folder of a match to other points" "$theirs 7, length 2, rules 1: $other" "restore fault: wrong match"
    check "a folder of a match by other rules" 1 "" "restore fault: wrong match" \
        loop --seed 7 --length 1 --rules 2 --rounds 1 --dir "$work/folder"
    said "a folder of a match by other rules" "$theirs 7, length 1, rules 2: $other" "restore fault: wrong match"
}

# try_other_folders (the folder of a match between processes, and one with saves of the other seat)
try_other_folders() {
    local seats
    mkdir "$work/table"
    : > "$work/table/match"
    check "a folder of a match between processes" 2 "" "a match between processes" \
        loop --seed 7 --length 1 --rounds 1 --dir "$work/table"
    said "a folder of a match between processes" \
        "bg_relay: $work/table has a match between processes: give another --dir"
    if [ "$(ls "$work/table")" = match ]; then right; else wrong "a folder of a match: $(ls "$work/table")"; fi
    mkdir "$work/seats"
    cp "$work/folder/party-2.0" "$work/seats/party-1.0"
    check "a folder with saves of the other seat" 1 "" "restore fault: wrong match" \
        loop --seed 7 --length 1 --rounds 1 --dir "$work/seats"
    seats="$work/seats has saves of player O of match 7, length 1, rules 1; this call is of match 7, length 1, rules 1"
    said "a folder with saves of the other seat" "bg_relay: $seats: give another --dir" "restore fault: wrong match"
}

# try_second_rules (rounds by the second rules, and what they save)
try_second_rules() {
    mkdir "$work/passing"
    check "rounds by the second rules" 0 "length 1 rules 2 game 1 " "" \
        loop --seed 7 --length 1 --rules 2 --rounds 10 --dir "$work/passing"
    check "what the referee saved by the second rules" 0 "party 0 match 7 length 1 rules 2 save " "" \
        show "$work/passing/party-0.0" "$work/passing/party-0.1"
    check "rules of 0 over sockets" 2 "" "invalid value '0'" \
        loop --seed 7 --length 1 --rules 0 --rounds 1 --dir "$work/passing"
    check "rules in the help of loop" 0 "--rules" "" loop --help
}

# try_loops (all of these)
try_loops() {
    try_rounds
    try_all_saves
    try_later_rounds
    try_other_matches
    try_other_folders
    try_second_rules
}
