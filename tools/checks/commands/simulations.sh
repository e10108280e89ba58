# What `sim` prints of matches that automatic players play. To be sourced.

# simulate NAME SEED LENGTH WATCHERS STEPS (an automatic match, whose transcript is good)
simulate() {
    check "$1" 0 "party 0: " "" sim --seed "$2" --length "$3" --watchers "$4" --steps "$5"
    sed '/^party /,$d' "$work/stdout" > "$work/transcript"
    "$program" judge < "$work/transcript" > "$work/judged" || true
    if grep -q '^ok ' "$work/judged"; then right; else wrong "$1: $(tail -n 1 "$work/judged")"; fi
}

# try_automatic_matches (no event, the match that docs/USING.md shows, and longer ones)
try_automatic_matches() {
    local party command
    simulate "an automatic match of no event" 1 1 1 0
    {
        printf 'length 1\n'
        for party in 0 1 2 3; do echo "party $party: 0 entries"; done
        "$program" script --length 1 --watchers 0 < /dev/null | tail -n 7
    } > "$work/expected"
    same "an automatic match of no event" "$work/expected"
    simulate "an automatic match" 1 1 1 300
    command='$ ./bg_relay sim --seed 1 --length 1 --watchers 1 --steps 300'
    awk -v command="$command" '$0 == command { shown = 1; next } /^```/ { shown = 0 } shown' "$top/docs/USING.md" \
        > "$work/expected"
    same "an automatic match" "$work/expected"
    simulate "a longer automatic match" 1 1 1 30000
    simulate "a match to many points" 3 99 7 30000
}

# try_most (the most of everything, and one that nobody watches, so that nobody is told how far it is, also where it takes
# more than a second: it is stopped when it has run for a hundredth, the 14th field of its stat, unless it has ended then)
try_most() {
    local began=$SECONDS steps=1000000 fields
    simulate "the most of everything" 18446744073709551615 99 253 1000000
    if [ $((SECONDS - began)) -gt 5 ]; then steps=50000; fi
    "$binary" sim --seed 3 --length 99 --watchers 253 --steps "$steps" \
        > "$work/stdout" 2> "$work/stderr" < "$work/stdin" &
    beside=$!
    while read -r -a fields 2> "$work/unread" < "/proc/$beside/stat" && [ "${fields[2]}" != Z ] && [ "${fields[13]}" -lt 1 ]; do
        sleep 0.005
    done
    kill -STOP "$beside" 2> "$work/unread" || true
    sleep 1.2
    kill -CONT "$beside" 2> "$work/unread" || true
    status=0
    wait "$beside" || status=$?
    beside=
    judge_run "a match of more than a second, which nobody watches" "$status" 0 "party 0: " ""
}

# try_automatic_transcript (it is good, and not short)
try_automatic_transcript() {
    "$program" sim --seed 7 --length 3 --watchers 1 --steps 20000 | sed '/^party /,$d' > "$work/stdin"
    check "the transcript of an automatic match" 0 "ok $(($(wc -l < "$work/stdin") - 1))" "" judge
    if [ "$(wc -l < "$work/stdin")" -gt 20 ]; then right; else wrong "the transcript of an automatic match is short"; fi
    : > "$work/stdin"
}

# try_arguments_of_sim (seeds, lengths, watchers, steps and rules)
try_arguments_of_sim() {
    check "no seed" 2 "" "--seed" sim --length 1 --watchers 0 --steps 0
    check "no length of a match" 2 "" "--length" sim --seed 1 --watchers 0 --steps 0
    check "no watchers of a match" 2 "" "--watchers" sim --seed 1 --length 1 --steps 0
    check "no steps" 2 "" "--steps" sim --seed 1 --length 1 --watchers 0
    check "a seed that is too large" 2 "" "invalid value '18446744073709551616'" \
        sim --seed 18446744073709551616 --length 1 --watchers 0 --steps 0
    check "a match of length 0" 2 "" "invalid value '0'" sim --seed 1 --length 0 --watchers 0 --steps 0
    check "a match of length 100" 2 "" "invalid value '100'" sim --seed 1 --length 100 --watchers 0 --steps 0
    check "254 watchers of a match" 2 "" "invalid value '254'" sim --seed 1 --length 1 --watchers 254 --steps 0
    check "too many steps" 2 "" "invalid value '1000001'" sim --seed 1 --length 1 --watchers 0 --steps 1000001
    check "rules of 3 of a match" 2 "" "invalid value '3'" sim --seed 1 --length 1 --rules 3 --watchers 0 --steps 0
    check "a match by the second rules" 0 "length 1 rules 2" "" \
        sim --seed 1 --length 1 --rules 2 --watchers 0 --steps 300
    check "help of sim" 0 "Usage: bg_relay sim" "" sim --help
    check "rules in the help of sim" 0 "--rules" "" sim --help
}

# try_simulations (all of these)
try_simulations() {
    try_automatic_matches
    try_most
    try_automatic_transcript
    try_arguments_of_sim
}
