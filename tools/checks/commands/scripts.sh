# What `script` says of the events of a match. To be sourced.

# script_example NAME WATCHERS (an example ends as the file beside it says)
script_example() {
    cp "$top/examples/scripts/$1.script" "$work/stdin"
    check "the script $1" 0 "party 0: 2 entries" "" script --length 1 --watchers "$2"
    same "the script $1" "$top/examples/scripts/$1.expected"
}

# try_script_examples (those of docs/PROTOCOL.md)
try_script_examples() {
    script_example turn_with_a_watcher 1
    script_example claim_sent_again 0
    script_example save_before_it_is_sent 0
    script_example early_entries 1
}

# try_refused_scripts (events that are refused, and what is no event)
try_refused_scripts() {
    printf 'take 0 0 12\ndue 4294967291\nchoose X roll\nsave 3\n' > "$work/stdin"
    check "a script of refusals" 0 "due refused: equal opening" "" script --length 1 --watchers 0
    {
        printf 'no datagram\ndue refused: equal opening\nclaim refused: not your turn\nno such party\n'
        printf 'party 0: 0 entries\nparty 1: 0 entries\nparty 2: 0 entries\n'
    } > "$work/expected"
    head -n 7 "$work/stdout" > "$work/first"
    mv "$work/first" "$work/stdout"
    same "a script of refusals" "$work/expected"
    printf 'due 12\ndue x\n' > "$work/stdin"
    check "a refused script" 2 "refused at line 2: not an event" "" script --length 1 --watchers 0
    echo "refused at line 2: not an event" > "$work/expected"
    same "a refused script" "$work/expected"
    printf 'take 0 0 04\n' > "$work/stdin"
    check "a script with a bad number" 2 "refused at line 1: bad number" "" script --length 1 --watchers 0
    : > "$work/stdin"
    check "an empty script" 0 "opening" "" script --length 99 --watchers 253
    head -c 41943041 /dev/zero > "$work/stdin"
    check "too long a script" 2 "refused: input too long" "" script --length 1 --watchers 0
    : > "$work/stdin"
}

# try_arguments_of_script (lengths, watchers and rules)
try_arguments_of_script() {
    check "no length" 2 "" "--length" script --watchers 0
    check "no watchers" 2 "" "--watchers" script --length 1
    check "a length of 0" 2 "" "invalid value '0'" script --length 0 --watchers 0
    check "a length of 100" 2 "" "invalid value '100'" script --length 100 --watchers 0
    check "254 watchers" 2 "" "invalid value '254'" script --length 1 --watchers 254
    check "a length that is no number" 2 "" "invalid value 'x'" script --length x --watchers 0
    check "rules of 0" 2 "" "invalid value '0'" script --length 1 --rules 0 --watchers 0
    check "rules of 3" 2 "" "invalid value '3'" script --length 1 --rules 3 --watchers 0
    check "rules that are no number" 2 "" "invalid value 'two'" script --length 1 --rules two --watchers 0
    check "the second rules" 0 "length 1 rules 2 game 1 score 0-0 " "" script --length 1 --rules 2 --watchers 0
    "$program" script --length 1 --watchers 0 < /dev/null > "$work/expected"
    check "the first rules by their number" 0 "length 1 game 1 score 0-0 " "" script --length 1 --rules 1 --watchers 0
    same "the first rules by their number" "$work/expected"
    check "help of script" 0 "Usage: bg_relay script" "" script --help
    check "rules in the help of script" 0 "--rules" "" script --help
}

# try_scripts (all of these)
try_scripts() {
    try_script_examples
    try_refused_scripts
    try_arguments_of_script
}
