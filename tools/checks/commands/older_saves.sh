# How `loop` goes on with saves of version 1, with saves that were cut short, and with those of an older day. To be
# sourced.

# try_cut_save (what docs/FORMATS.md shows of a folder, with a save that was cut short)
try_cut_save() {
    cp -r "$top/examples/version-1/loop" "$work/older"
    cp -r "$work/older" "$work/cut"
    head -c 60 "$top/examples/version-1/loop/party-2.0" > "$work/cut/party-2.0"
    awk '$0 == "$ ./bg_relay show match | head -n 9" { shown = 1; next } /^```/ { shown = 0 } shown' "$top/docs/FORMATS.md" \
        > "$work/expected"
    check "a folder with a save that was cut short" 0 "1 behind party 0" "" show "$work/cut"
    sed -n '10s/ game .*//p' "$work/stdout" > "$work/first"
    head -n 9 "$work/stdout" > "$work/second"
    mv "$work/second" "$work/stdout"
    same "a folder with a save that was cut short" "$work/expected"
    if [ "$(cat "$work/first")" = "length 3" ]; then right; else wrong "the board of a folder: $(cat "$work/first")"; fi
}

# try_first_version (a folder that a program of version 1 wrote, goes on: the next saves have the next numbers, go
# to the other slots, and have the entries that were held and more behind them, as texts of version 2)
try_first_version() {
    local party
    check "a folder of version 1" 0 "file 0: party 0 match 7 length 3 save 40 entries 20" "" \
        show "$work/older/party-0.0" "$work/older/party-0.1"
    check "a match of version 1 goes on" 0 "party 0: 2" "" loop --seed 7 --length 3 --rounds 1 --dir "$work/older"
    check "what was saved of it" 0 "file 1: party 0 match 7 length 3 save 41 entries 2" "" \
        show "$work/older/party-0.0" "$work/older/party-0.1"
    for party in 0 1 2; do
        if cmp -s "$top/examples/version-1/loop/party-$party.0" "$work/older/party-$party.0" &&
            [ "$(head -c 4 "$work/older/party-$party.1")" = BGS2 ]; then
            right
        else
            wrong "party $party saved over the newer text of version 1, or no text of version 2"
        fi
    done
    tail -c +22 "$top/examples/version-1/loop/party-0.0" > "$work/held"
    if tail -c +25 "$work/older/party-0.1" | head -c "$(stat -c %s "$work/held")" | cmp -s - "$work/held"; then
        right
    else
        wrong "the referee did not go on behind the entries of version 1"
    fi
}

# try_older_day (the referee's files are older than those of the seats)
try_older_day() {
    mkdir "$work/ages"
    check "a few rounds" 0 "party 0: " "" loop --seed 7 --length 1 --rounds 10 --dir "$work/ages"
    cp "$work/ages"/party-0.* "$work"
    check "more rounds" 0 "party 0: " "" loop --seed 7 --length 1 --rounds 60 --dir "$work/ages"
    mv "$work"/party-0.* "$work/ages"
    check "a folder with a referee of an older day" 0 " behind party 1" "" show "$work/ages"
    if grep -qE '^party 0: [0-9]+ entries, [0-9]+ behind party 1$' "$work/stdout"; then
        right
    else
        wrong "a folder with a referee of an older day: $(grep '^party [0-9]:' "$work/stdout")"
    fi
    check "a referee of an older day" 0 "party 0: " "are from different points in time: party 1 has " \
        loop --seed 7 --length 1 --rounds 60 --dir "$work/ages"
    if [ "$(wc -l < "$work/stderr")" -eq 1 ]; then right; else wrong "a referee of an older day: $(cat "$work/stderr")"; fi
}

# try_older_saves (all of these)
try_older_saves() {
    try_cut_save
    try_first_version
    try_older_day
}
