# What `list` says of the matches in folders. The match of examples/version-1/loop has 20 entries, and its referee's
# saves are 40 and 39. To be sourced.

line='match 7 length 3 rules 1 port 4000'
# an acute accent on the letter before it, as a character of its own
accent=$'\xcc\x81'

# table FOLDER MATCH-FILE (a referee's folder with that match, and with saves of match 7, all of one time)
table() {
    mkdir -p "$1"
    echo "$2" > "$1/match"
    cp "$top/examples/version-1/loop"/party-0.? "$1"
    touch -d '2024-02-29T23:59:59Z' "$1"/party-0.?
}

# try_found_matches (which folders have a match, and what is said of it)
try_found_matches() {
    table halls/one "$line"
    table halls/west/room/shelf "$line"
    table halls/west/room/shelf/deep "$line"
    table halls/a/b/c/d "$line"
    mkdir halls/new halls/none
    echo "match 18446744073709551615 length 99 rules 2 port 65280" > halls/new/match
    ln -s ../../halls/one halls/none/link
    cat > "$work/expected" << 'END'
FOLDER                 MATCH                 SCORE      GAME  NEXT       ENTRIES  LAST SAVE             OPEN  FILES
halls/new              18446744073709551615  0-0 of 99  1     opening    0        -                     -     nothing saved yet
halls/one              7                     0-0 of 3   1     X to roll  20       2024-02-29T23:59:59Z  -     saved
halls/west/room/shelf  7                     0-0 of 3   1     X to roll  20       2024-02-29T23:59:59Z  -     saved
END
    check_lines "the matches below a folder" 0 list halls
    check_lines "a list in its usual format" 0 list --format text halls///
    cat > "$work/expected" << 'END'
FOLDER         MATCH  SCORE     GAME  NEXT       ENTRIES  LAST SAVE             OPEN  FILES
halls/one      7      0-0 of 3  1     X to roll  20       2024-02-29T23:59:59Z  -     saved
halls/a/b/c/d  7      0-0 of 3  1     X to roll  20       2024-02-29T23:59:59Z  -     saved
END
    check_lines "folders of matches that are named, in the order given" 0 list halls/one halls/a/b/c/d
    cat > "$work/expected" << 'END'
bg_relay: halls/none has no match, nor has a folder at most three folders deep in it
END
    check_lines "a folder without a match" 0 list halls/none
}

# try_listed_json (the same for programs)
try_listed_json() {
    local new='{"path":"halls/new","match":"18446744073709551615","length":99,"rules":2,"port":65280,"open":false,'
    new+='"score":{"x":0,"o":0},"game":1,"next":"opening","over":false,"entries":0,"saved":true}'
    local one='{"path":"halls/one","match":"7","length":3,"rules":1,"port":4000,"open":false,"score":{"x":0,"o":0},"game":1,'
    one+='"next":"X to roll","over":false,"entries":20,"changed":"2024-02-29T23:59:59Z","saved":true}'
    printf '%s\n' "$new" "$one" > "$work/expected"
    check_lines "a list for programs" 0 list --format json halls/new halls/one
}

# try_listed_names (names of players have a part of their own, where a line has some)
try_listed_names() {
    table names/both "$line
name-x Anna
name-o \"\\Otto"
    table names/neither "$line"
    table names/one "$line
name-o Otto"
    cat > "$work/expected" << 'END'
FOLDER         MATCH  PLAYERS              SCORE     GAME  NEXT       ENTRIES  LAST SAVE             OPEN  FILES
names/both     7      Anna against "\Otto  0-0 of 3  1     X to roll  20       2024-02-29T23:59:59Z  -     saved
names/neither  7      -                    0-0 of 3  1     X to roll  20       2024-02-29T23:59:59Z  -     saved
names/one      7      X against Otto       0-0 of 3  1     X to roll  20       2024-02-29T23:59:59Z  -     saved
END
    check_lines "matches with names" 0 list names
    check "names for programs" 0 '"port":4000,"names":{"x":"Anna","o":"\"\\Otto"},"open":' "" list --format json names/both
    check "one name for programs" 0 '"port":4000,"names":{"o":"Otto"},"open":' "" list --format json names/one
}

# try_wide_names (columns are those of a terminal: an accent of its own takes none, and a Chinese character two)
try_wide_names() {
    table wide/größe "$line
name-x Zoé
name-o Rene$accent"
    table wide/letters "$line
name-x 李小龍
name-o 王"
    cat > "$work/expected" << END
FOLDER        MATCH  PLAYERS            SCORE     GAME  NEXT       ENTRIES  LAST SAVE             OPEN  FILES
wide/größe    7      Zoé against Rene$accent   0-0 of 3  1     X to roll  20       2024-02-29T23:59:59Z  -     saved
wide/letters  7      李小龍 against 王  0-0 of 3  1     X to roll  20       2024-02-29T23:59:59Z  -     saved
END
    check_lines "names with accents, and with wide letters" 0 list wide
}

# make_bad_folders (folders of each of which something is wrong)
make_bad_folders() {
    table bad/cut "$line"
    head -c 60 "$top/examples/version-1/loop/party-0.0" > bad/cut/party-0.0
    table bad/damaged "$line"
    echo BGS3 > bad/damaged/party-0.0
    : > bad/damaged/party-0.1
    table bad/emptied "$line"
    : > bad/emptied/party-0.1
    table bad/first "$line"
    rm bad/first/party-0.0
    echo B > bad/first/party-0.1
    table bad/none "match 7 length 3 rules 1 port 4000 "
    table bad/other "match 7 length 3 rules 2 port 4000"
    table "bad/${escape}\"" "match 8 length 3 rules 1 port 4000"
    touch -d '1970-01-01T00:00:00Z' bad/*/party-0.?
}

# try_bad_folders (what is wrong with a folder stands in its line, and the others are listed)
try_bad_folders() {
    cat > "$work/expected" << 'END'
FOLDER           MATCH  SCORE     GAME  NEXT       ENTRIES  LAST SAVE             OPEN  FILES
bad/\u{1b}[2J\"  8      the saves are of another match
bad/cut          7      0-0 of 3  1     X to roll  20       1970-01-01T00:00:00Z  -     party-0.0 is damaged: short
bad/damaged      7      party-0.0 is damaged: bad magic, party-0.1 is damaged: empty
bad/emptied      7      0-0 of 3  1     X to roll  20       1970-01-01T00:00:00Z  -     party-0.1 is damaged: empty
bad/first        7      0-0 of 3  1     opening    0        1970-01-01T00:00:00Z  -     party-0.1 is damaged: short
bad/none         match is no match file
bad/other        7      the saves are of another match
END
    check_lines "matches of which something is wrong" 2 list bad
    check "the same for programs" 2 '"saved":false,"fault":"party-0.0 is damaged: short"}' "" list --format json bad
    if python3 -c 'import json, sys
lines = [json.loads(line) for line in sys.stdin]
assert [line["path"] for line in lines][0] == "bad/\33[2J\"" and len(lines) == 7' < "$work/stdout" 2> "$work/unread"; then
        right
    else
        wrong "lines of JSON: $(cat "$work/stdout")"
    fi
}

# try_unread_folders (what can't be read, and is not there)
try_unread_folders() {
    table unread/file "$line"
    rm unread/file/party-0.1
    mkdir unread/file/party-0.1
    cat > "$work/expected" << 'END'
FOLDER       MATCH  FILES
missing      could not be read: No such file or directory (os error 2)
unread/file  7      party-0.1 could not be read: it is no plain file
bad/none     match is no match file
END
    check_lines "what can't be read" 1 list missing unread bad/none
    printf '%s\n' 'FOLDER           FILES' 'halls/one/match  could not be read: Not a directory (os error 20)' > "$work/expected"
    check_lines "a file in the place of a folder" 1 list halls/one/match
    if [ "$(id -u)" -ne 0 ]; then
        mkdir -m 000 closed
        printf '%s\n' 'FOLDER  FILES' 'closed  could not be read: Permission denied (os error 13)' > "$work/expected"
        check_lines "a folder of somebody else" 1 list closed
        rmdir closed
    fi
}

# try_arguments_of_list (no folder, an empty name, and no format)
try_arguments_of_list() {
    check "no folder to list" 2 "" "required" list
    check "an empty name of a folder to list" 2 "" "bg_relay: the name of a folder is empty" list halls ""
    check "a format that is none" 2 "" "invalid value 'xml'" list --format xml halls
    check "help of list" 0 "Usage: bg_relay list" "" list --help
}

# try_lists (all of these)
try_lists() {
    mkdir "$work/lists"
    cd "$work/lists"
    try_found_matches
    try_listed_json
    try_listed_names
    try_wide_names
    make_bad_folders
    try_bad_folders
    try_unread_folders
    try_arguments_of_list
    cd "$OLDPWD"
}
