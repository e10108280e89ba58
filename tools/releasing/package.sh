# shellcheck shell=bash disable=SC2154
# The package for Debian and its like. To be sourced by tools/release, which sets the names that are
# used.

# maintainer (whom the owner names in tools/releasing/maintainer, as "Name <address>")
maintainer() {
    if [ -e "$releasing/maintainer" ]; then
        head -n 1 "$releasing/maintainer"
    else
        echo "the owner of bg_relay <no-address-is-set-yet@bg-relay.invalid>"
    fi
}

# copyright_file (what the package says of the licence)
copyright_file() {
    echo "bg_relay $version, made from revision $revision."
    echo
    echo "Copyright $(date -u -d "@$epoch" +%Y) the owner of bg_relay."
    echo
    if [ -e "$top/LICENSE" ]; then cat "$top/LICENSE"; else licence; fi
}

# changelog_file (the newest changes, in the form of Debian)
changelog_file() {
    echo "bg-relay ($package_version) unstable; urgency=medium"
    if [ -n "$is_trial" ]; then printf '\n  * NOT PROVED: a trial, and no release.\n'; fi
    "$releasing/debian_changes" "$top/CHANGELOG.md"
    printf '\n -- %s  %s\n' "$(maintainer)" "$(date -u -R -d "@$epoch")"
}

# depends ROOT (what is needed: the C library, and of a program that has checks one more)
depends() {
    local files=() more=
    mapfile -t files < <(find "$1/usr" -type f \( -path '*/libexec/*' -o -name '*.so.*' \))
    if grep -qaF libgcc_s.so.1 "${files[@]}"; then more=", libgcc-s1"; fi
    echo "libc6 (>= $(needed_glibc "${files[@]}"))$more"
}

# kilobytes FOLDER (what its files take, each rounded up)
kilobytes() {
    find "$1" -type f -printf '%s\n' | awk '{ sum += int(($1 + 1023) / 1024) } END { print sum }'
}

# control_file ROOT
control_file() {
    local about="proved backgammon match relay"
    local proof="What is proved of it is in MANIFEST, among its documents."
    if [ -n "$is_trial" ]; then
        about="backgammon match relay, NOT PROVED: a trial, and no release"
        proof="This program is not proved."
    fi
    cat << END
Package: bg-relay
Version: $package_version
Architecture: amd64
Maintainer: $(maintainer)
Installed-Size: $(kilobytes "$1/usr")
Depends: $(depends "$1")
Section: net
Priority: optional
Description: $about
 Two players, a referee, and up to 253 watchers follow one match of
 backgammon over datagrams that may be lost, repeated and reordered. Any of
 them may be killed at any moment, and continues from its files. People play
 at terminals, or in browsers on a match server. The program also judges
 transcripts, draws boards, and makes pages of matches.
 .
 $proof
 It needs a processor of x86-64-v2.
END
}

# place_for_debian USR (moves what Debian has in other places, and packs manual pages)
place_for_debian() {
    local libraries=$1/lib/x86_64-linux-gnu documents=$1/share/doc/bg-relay
    mv "$1/share/doc/bg_relay" "$documents"
    mv "$1/share/zsh/site-functions" "$1/share/zsh/vendor-completions"
    if [ -n "$with_library" ]; then
        mkdir "$libraries"
        mv "$1"/lib/libbg_relay.* "$1/lib/pkgconfig" "$libraries/"
        # shellcheck disable=SC2016 # (pkg-config puts in the prefix)
        sed -i 's|^libdir=.*|libdir=${prefix}/lib/x86_64-linux-gnu|' "$libraries/pkgconfig/bg_relay.pc"
    fi
    sed -i 's|/usr/local/bin/|/usr/bin/|' "$documents"/examples/service/*.service
    find "$1/share/man" -type f -exec gzip -9n {} +
}

# make_package ROOT FILE (of what was staged below ROOT/usr)
make_package() {
    local documents=$1/usr/share/doc/bg-relay control=$1/DEBIAN
    place_for_debian "$1/usr"
    copyright_file > "$documents/copyright"
    changelog_file | gzip -9n > "$documents/changelog.gz"
    install -D -m 644 "$releasing/lintian_overrides" "$1/usr/share/lintian/overrides/bg-relay"
    make_manifest "$1" "$documents/MANIFEST"
    mkdir "$control"
    control_file "$1" > "$control/control"
    (cd "$1" && find usr -type f -print0 | sort -z | xargs -0 md5sum) > "$control/md5sums"
    if [ -n "$with_library" ]; then
        echo "libbg_relay $interface bg-relay (>= $version)" > "$control/shlibs"
        echo "activate-noawait ldconfig" > "$control/triggers"
    fi
    same_modes "$1"
    # (the bytes that several threads pack depend on how many there are)
    DPKG_DEB_THREADS_MAX=1 dpkg-deb --root-owner-group -Zxz -z3 -b "$1" "$2" > /dev/null
}
