# Headers go with a match, both ways: into a file beside its transcript, and from options. To be sourced, behind
# spellings.sh.

# try_headers_beside (headers of a match file in a file of their own)
try_headers_beside() {
    cp ada.mat "$work/stdin"
    check "a match file with headers" 0 "length 2" "" import --headers ada.headers
    cat > "$work/expected" << 'END'
name-x Ada : 1
name-o Zoe B
date 2020.01.02
event World "Cup"
place Łódź
END
    cp ada.headers "$work/stdout"
    same "headers beside a transcript" "$work/expected"
    check "headers of a file that is there" 2 "" "bg_relay: ada.headers exists: --force overwrites it" \
        import --headers ada.headers
    check "headers for a file without a name" 2 "" "bg_relay: the name of a file is empty" import --headers ""
    check "headers over a file that is there" 0 "length 2" "" import --force --headers ada.headers
    printf '; [Event "%s"]\n 1 point match\n' "$long_name" > "$work/stdin"
    check "headers that are malformed" 0 "length 1" "bg_relay: line 1: the event has more than 64 bytes" \
        import --headers no.headers
}

# try_named_match_files (headers from options, and again from what that makes; $work/expected has them)
try_named_match_files() {
    cp "$top/examples/whole_match.txt" "$work/stdin"
    check "a match file with names" 0 " Ada : 1 : 0                    Zoe B : 0" "" \
        export --x "Ada : 1" --o "Zoe B" --date 2020.01.02 --event 'World "Cup"' --place Łódź
    cp "$work/stdout" named.mat
    cp named.mat "$work/stdin"
    check "a match file with names from its text" 0 "length 7" "" import --force --headers ada.headers
    same "a match file with names from its text" "$top/examples/whole_match.txt"
    cp ada.headers "$work/stdout"
    same "headers from a match file with names" "$work/expected"
}

# try_odd_names (names like scores, and those that are refused)
try_odd_names() {
    local name
    for name in "Al : 3 B" "$long_name" ";x" ""; do
        "$program" export --x "$name" < "$top/examples/opening.txt" 2>&1 || true
    done | sed 's/ *$//' > "$work/stdout"
    cat > "$work/expected" << 'END'
; [Player 1 "Al : 3 B"]
 1 point match

 Game 1
 Al : 3 B : 0                   O : 0
  1) 31: 8/5 6/5
bg_relay: --x is refused: a name has 1 to 64 bytes of UTF-8
bg_relay: --x is refused: a match file takes a line that begins with a semicolon for a comment
bg_relay: --x is refused: a name has 1 to 64 bytes of UTF-8
END
    same "names that are refused" "$work/expected"
    head -n 6 "$work/stdout" > odd.mat
    check "a name like a score" 0 '"name_x":"Al : 3 B"' "bg_relay: 1 ok" check --format json odd.mat
}

# try_header_files (all of these)
try_header_files() {
    cd "$work/files"
    try_headers_beside
    try_named_match_files
    try_odd_names
    cd "$OLDPWD"
}
