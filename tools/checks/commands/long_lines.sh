# What `check` says of files that are far too long, and of lines that are wider than the screen. To be sourced, behind
# files.sh.

# try_long_files (a file of a gigabyte in little memory, and a long line)
try_long_files() {
    truncate -s 1G long
    run_in_little_memory check long good
    printf 'long: refused: input too long\ngood: ok 2, not over\n' > "$work/expected"
    same "a file of a gigabyte" "$work/expected"
    judge_run "a file of a gigabyte, and a good one" "$status" 2 "good: ok 2, not over" "bg_relay: 1 ok, 1 refused"
    head -c 30000000 /dev/zero | tr '\0' a > long
    check "a line of 30000000 bytes" 2 "long: refused at line 1: not a length line: aaa" "bg_relay: 0 ok, 1 refused" check long
    if [ "$(wc -c < "$work/stdout")" -eq 1043 ]; then right; else wrong "a line of 30000000 bytes: $(wc -c < "$work/stdout")"; fi
    rm long
}

# try_lines_on_screens (lines are cut to the width of the screen, or what stands for it)
try_lines_on_screens() {
    local columns
    printf 'length 1\nopen 3 1 and much more than that\n' > wide
    cp wide "$(printf 'w\xc3\xa6de')"
    for columns in 60 40 36; do
        COLUMNS=$columns on_screen check wide good wæde || true
    done > "$work/stdout"
    (unset COLUMNS && on_screen check wide || true) >> "$work/stdout"
    printf 'length 1\nopen 3 1 and much more than that, and more, and more, and more\n' > wide
    (unset COLUMNS && on_screen check wide || true) >> "$work/stdout"
    for columns in none 0; do
        COLUMNS=$columns on_screen check wide || true
    done >> "$work/stdout"
    cat > "$work/expected" << 'END'
wide: refused at line 2: not a line: open 3 1 and much mo...
good: ok 2, not over
wæde: refused at line 2: not a line: open 3 1 and much m...
wide: refused at line 2: not a line: ...
good: ok 2, not over
wæde: refused at line 2: not a line
wide: refused at line 2: not a line
good: ok 2, not over
wæde: refused at line 2: not a line
wide: refused at line 2: not a line: open 3 1 and much more than that
wide: refused at line 2: not a line: open 3 1 and much more than that, and mo...
wide: refused at line 2: not a line: open 3 1 and much more than that, and mo...
wide: refused at line 2: not a line: open 3 1 and much more than that, and mo...
END
    same "lines on a screen" "$work/expected"
}

# try_long_lines (all of these)
try_long_lines() {
    cd "$work/files"
    try_long_files
    try_lines_on_screens
    cd "$OLDPWD"
}
