# What `check` prints for programs, and of which files of a folder. A row is a line whatever its file's name and text
# are. To be sourced, behind files.sh.

# tabs N (so many)
tabs() {
    printf '\t%.0s' $(seq "$1")
}

# try_rows_with_tabs (the headings, and rows of each verdict)
try_rows_with_tabs() {
    local front ids
    cp "$top/examples/whole_match.txt" whole
    {
        printf '%s\t' file kind verdict line reason text entries length rules x o game winner state position_id match_id xgid
        printf '%s\t' points met name_x name_o date event place
        echo header_fault
        # GNU Backgammon gives the first two of them where O is to roll after 31: 8/5 6/5 in a match of one point.
        ids="sGfwATDgc/ABMA${tab}MAEgAAAAAAAE${tab}XGID=-b---BD-B---eE---c-e----B-:0:0:-1:00:0:0:0:1:7"
        front="good${tab}transcript${tab}ok$(tabs 4)2${tab}1${tab}1${tab}0${tab}0${tab}1$(tabs 2)in game"
        echo "$front${tab}$ids$(tabs 8)"
        echo "bad${tab}transcript${tab}refused${tab}3${tab}more can be played${tab}X move 8-5$(tabs 19)"
        echo "no${tab}${tab}unread${tab}${tab}No such file or directory (os error 2)$(tabs 20)"
        front="other.mat${tab}match file${tab}refused${tab}4${tab}not the next game${tab} Game 2"
        echo "$front$(tabs 14)X$(tabs 5)"
        echo "bg_relay: no could not be read: No such file or directory (os error 2)"
        echo "bg_relay: 1 ok, 2 refused, 1 not judged"
    } > "$work/expected"
    check_lines "rows with tabs" 1 check --format tsv good bad no other.mat
}

# try_row_of_whole_match (what has been won, and that it is over)
try_row_of_whole_match() {
    check "a row of a whole match" 0 "whole" "bg_relay: 1 ok" check --format tsv whole
    cut -f 1-14,18 "$work/stdout" | tail -n 1 > "$work/told"
    printf '%s\t' whole transcript ok '' '' '' 360 7 1 5 7 6 O over > "$work/expected"
    echo 2 >> "$work/expected"
    cp "$work/told" "$work/stdout"
    same "a row of a whole match" "$work/expected"
}

# try_rows_of_json (rows of each verdict, and those alone that are refused)
try_rows_of_json() {
    local good='{"file":"good","kind":"transcript","verdict":"ok","entries":2,"length":1,"rules":1,"x":0,"o":0,"game":1,'
    good+='"state":"in game","position_id":"sGfwATDgc/ABMA","match_id":"MAEgAAAAAAAE",'
    good+='"xgid":"XGID=-b---BD-B---eE---c-e----B-:0:0:-1:00:0:0:0:1:7"}'
    {
        echo "$good"
        cat << 'END'
{"file":"bad","kind":"transcript","verdict":"refused","line":3,"reason":"more can be played","text":"X move 8-5"}
{"file":"no","verdict":"unread","reason":"No such file or directory (os error 2)"}
bg_relay: no could not be read: No such file or directory (os error 2)
bg_relay: 1 ok, 1 refused, 1 not judged
END
    } > "$work/expected"
    check_lines "rows of JSON" 1 check --format json good bad no
    cat > "$work/expected" << 'END'
{"file":"bad","kind":"transcript","verdict":"refused","line":3,"reason":"more can be played","text":"X move 8-5"}
bg_relay: 1 ok, 1 refused
END
    check_lines "rows of what is refused" 2 check --quiet --format json good bad
}

# make_folders (files and links below the folder deep, whose names have a line break and a tab)
make_folders() {
    mkdir -p deep/b/c deep/.hidden "deep/a\"
x"
    cp good deep/b/c/good
    cp bad deep/b/bad
    # Nobody writes into this pipe.
    mkfifo deep/b/pipe
    cp bad deep/.hidden/bad
    cp bad deep/.bad
    cp other.mat "deep/a\"
x/other	mat"
    ln -s .. deep/b/c/up
    ln -s good deep/b/c/same
}

# try_files_of_folders (which of them are judged, and how JSON tells their names)
try_files_of_folders() {
    cat > "$work/expected" << 'END'
deep/a\"\nx/other\tmat: refused at line 4: not the next game:  Game 2
deep/b/bad: refused at line 3: more can be played: X move 8-5
deep/b/c/good: ok 2, not over
deep/b/c/same: ok 2, not over
good: ok 2, not over
bg_relay: 3 ok, 2 refused
END
    check_lines "the files of a folder" 2 check --recursive deep/ good
    run check --recursive --format json deep
    python3 - "$work/stdout" << 'END' > "$work/told"
import json, sys
for line in open(sys.argv[1], encoding="utf-8"):
    row = json.loads(line)
    print(repr(row["file"]), row["verdict"])
END
    printf '%s\n' "'deep/a\"\\nx/other\\tmat' refused" "'deep/b/bad' refused" "'deep/b/c/good' ok" "'deep/b/c/same' ok" \
        > "$work/expected"
    cp "$work/told" "$work/stdout"
    same "names in JSON are those of the files" "$work/expected"
}

# try_processes (several at once, as the help shows it)
try_processes() {
    printf '%s\0' good bad whole empty good |
        xargs -0 -n 1 -P 4 "$program" check --quiet 2> /dev/null | sort > "$work/stdout" || true
    printf '%s\n' "bad: refused at line 3: more can be played: X move 8-5" "empty: refused at line 1: not a length line" \
        > "$work/expected"
    same "files judged by several processes" "$work/expected"
}

# try_rows (all of these)
try_rows() {
    cd "$work/files"
    try_rows_with_tabs
    try_row_of_whole_match
    try_rows_of_json
    make_folders
    try_files_of_folders
    try_processes
    cd "$OLDPWD"
}
