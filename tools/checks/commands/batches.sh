# What `import` and `export` make of many files at once, in another folder. To be sourced, behind header_files.sh.

# try_match_files_into_a_folder (what is made, of files that are good, refused, missing or there already)
try_match_files_into_a_folder() {
    mkdir out back
    cp "$top/examples/match_files/other_program.mat" "a b.mat"
    : > "$work/stdin"
    cat > "$work/expected" << 'END'
bg_relay: other.mat: refused at line 4: not the next game:  Game 2
bg_relay: none.mat could not be read: No such file or directory (os error 2)
bg_relay: 2 ok, 1 refused, 1 not judged
END
    check_lines "match files into a folder" 1 import --out out "a b.mat" other.mat ./named.mat none.mat
    (cd out && ls && cat "a b.txt" named.txt) > "$work/stdout"
    { printf 'a b.txt\nnamed.txt\n'; cat "$top/examples/match_files/other_program.txt" "$top/examples/whole_match.txt"; } \
        > "$work/expected"
    same "match files into a folder" "$work/expected"
    echo mine > "out/a b.txt"
    cat > "$work/expected" << 'END'
bg_relay: out/a b.txt exists: --force overwrites it
bg_relay: 0 ok, 1 refused
END
    check_lines "a file that is there" 2 import --out out "a b.mat"
    echo 'bg_relay: 1 ok, 0 refused' > "$work/expected"
    check_lines "over a file that is there" 0 import --out out --force "a b.mat"
    echo 'bg_relay: 2 ok, 0 refused' > "$work/expected"
    check_lines "transcripts into a folder" 0 export --out back --x Ada --o "Zoe B" "out/a b.txt" out/named.txt
    (cd back && ls && grep -c '^ Ada : 0 .* Zoe B : 0$' ./*) > "$work/stdout"
    printf '%s\n' "a b.mat" named.mat "./a b.mat:1" ./named.mat:1 > "$work/expected"
    same "transcripts into a folder" "$work/expected"
}

# try_headers_of_many (headers go with many matches, both ways; options go before them)
try_headers_of_many() {
    mkdir with again
    cp named.mat ada.mat
    check "match files with headers into a folder" 0 "" "bg_relay: 2 ok, 0 refused" \
        import --out with --with-headers ada.mat "a b.mat"
    cp with/ada.headers "$work/stdout"
    cat > "$work/expected" << 'END'
name-x Ada : 1
name-o Zoe B
date 2020.01.02
event World "Cup"
place Łódź
END
    same "headers beside transcripts" "$work/expected"
    check "transcripts with headers into a folder" 0 "" "bg_relay: 2 ok, 0 refused" \
        export --out again --with-headers --place Basel with/*.txt
    sed 's/Łódź/Basel/' named.mat > "$work/expected"
    cp again/ada.mat "$work/stdout"
    same "match files with headers from a folder" "$work/expected"
    printf 'date \nname-x Ada\n' > with/ada.headers
    check "headers that are none" 2 "" "bg_relay: with/ada.txt: line 1 of the headers beside it is invalid: it was not exported" \
        export --out again --force --with-headers with/ada.txt
}

# try_refused_batches (files and folders that can't be, and what is given in place of something else)
try_refused_batches() {
    check "two files of one name" 2 "" \
        "bg_relay: out/named.txt would be written for both named.mat and back/named.mat: rename one, or convert it into another folder" \
        import --force --out out named.mat ada.mat back/named.mat
    check "a file that is named twice" 2 "" "bg_relay: named.mat is named twice: name it once" \
        import --force --out out named.mat ada.mat named.mat
    check "a folder that is none" 2 "" "bg_relay: good is no folder" import --out good named.mat
    check "a folder that is missing, for match files" 2 "" "bg_relay: nowhere is missing: make it first" \
        import --out nowhere named.mat
    check "a folder without a name, for match files" 2 "" "bg_relay: the name of a folder is empty" \
        import --out "" named.mat
    check "a folder without a name, for transcripts" 2 "" "bg_relay: the name of a folder is empty" \
        export --out "" good
    mkfifo out/ada.txt
    check "a pipe in place of a file" 2 "" "bg_relay: out/ada.txt is no regular file: name another one" \
        import --force --out out ada.mat
    rm out/ada.txt
    local match_file="bg_relay: it is a match file, of which \`import\` makes a transcript"
    cp named.mat "$work/stdin"
    check "a match file in place of a transcript" 2 "" "$match_file" export
    check "a match file that is judged" 2 "refused at line 1: not a length line" "$match_file" judge
    printf 'length 1\nopen 3 1\n' > "$work/stdin"
    check "a transcript in place of a match file" 2 "" \
        "bg_relay: it begins as a transcript, of which \`export\` makes a match file" import
    : > "$work/stdin"
    check "a folder for no file" 2 "" "bg_relay: --out needs the files to convert" import --out out
    check "headers of many" 2 "" "bg_relay: --headers is for one match file: with --out use --with-headers" \
        import --out out --headers x named.mat
    check "a folder that can't be written to" 1 "" "/dev/pts/named.txt could not be written: " import --out /dev/pts named.mat
}

# try_batches (all of these)
try_batches() {
    cd "$work/files"
    try_match_files_into_a_folder
    try_headers_of_many
    try_refused_batches
    cd "$OLDPWD"
    check "import by third rules" 2 "" "3 is not in 1..=2" import --rules 3
}
