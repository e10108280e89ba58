# shellcheck shell=bash disable=SC2154
# What a release says of itself. To be sourced by tools/release, which sets the names that are used.

# noted FILE WORD (what FILE.proved has behind a word: sources, file or toolchain)
noted() {
    sed -n "s/^$2 //p" "$1.proved"
}

# licence (where it stands, or that none does: LICENSE at the top is the owner's to write)
licence() {
    if [ -e "$top/LICENSE" ]; then
        echo "The licence is in LICENSE, among the documents."
    else
        echo "No licence has been chosen yet, so ask the owner before you copy this or build on it."
    fi
}

# parts (of the program and of the library: whether it was proved, and of which sources)
parts() {
    if [ -z "$is_trial" ]; then
        echo "program    proved, of the sources $(noted "$program" sources)"
        echo "toolchain  $toolchain"
    else
        echo "program    NOT PROVED: of which sources it was built, and by what, is not known"
    fi
    if [ -z "$with_library" ]; then
        echo "library    none: it does not stand proved"
        return
    fi
    echo "library    proved, of the sources $(noted "$library" sources)"
    echo "           libbg_relay.a is what was proved and include/*.c, which are trusted;"
    echo "           libbg_relay.so.$interface is linked of it"
    if [ -n "$is_trial" ]; then echo "toolchain  $(noted "$library" toolchain), of the library"; fi
}

# claims (what is proved and what is not, as README.md says it)
claims() {
    local parts
    parts=$(awk '/^## / { on = $0 == "## What is proved"; next } on' "$top/README.md")
    if [ -z "$parts" ]; then stop "README.md says no more what is proved, where it did"; fi
    printf 'What is proved, and what is not:\n%s\n' "$parts"
}

# make_manifest FOLDER FILE (of all that lies in a folder; the file, which lies there, is written)
make_manifest() {
    {
        echo "bg_relay $version for x86_64-linux${is_trial:+ (NOT PROVED: a trial, and no release)}"
        echo
        echo "revision   $revision${changes:+, with uncommitted changes}"
        echo "committed  $(date -u -d "@$epoch" +%Y-%m-%dT%H:%M:%SZ)"
        parts
        echo
        licence
        echo
        if [ -z "$is_trial" ]; then
            claims
        else
            echo "docs/PROVED.md says what is proved of a program that is."
        fi
        echo
    } | sed 's/^/# /; s/ $//' > "$2"
    (
        cd "$1" || exit
        find . \( -type f -o -type l \) -printf '%P\0' | grep -zvxF "${2#"$1/"}" \
            | LC_ALL=C sort -z | xargs -0 sha256sum
    ) >> "$2"
}
