# shellcheck shell=bash
# The package: the built program with all that its users run and read, as a Debian package and as an archive.

# Pages for those who work on the program.
inner_pages='ANSWERS CASES CONTRIBUTING DECISIONS DECISIONS_IN_CODE DEFINITIONS GATE LAYERS SURFACE'

# The modules of Python that Debian has in packages of their own, and which of the companions do more where they are there.
python_packages='prompt_toolkit:python3-prompt-toolkit lark:python3-lark aiohttp:python3-aiohttp'

# Puts what users run and read into a folder ($1), each thing where it stands in the repository.
put_tree() {
    local page
    mkdir -p "$1" && put_program "$1" && cp "$root/VERSION" "$root/README.md" "$1" &&
        cp -r "$root/companions" "$root/examples" "$root/docs" "$1" || return
    rm -rf "$1/companions/tests" "$1"/companions/make-* "$1/docs/tables"
    find "$1/companions" -name '__pycache__' -prune -exec rm -rf {} +
    for page in $inner_pages; do rm -f "$1/docs/$page.md"; done
}

# The companions of a tree ($1) that are commands.
commands_of() { find "$1/companions" -maxdepth 1 -type f -name 'lotos-*' -perm -100 -printf '%f\n' | sort; }

# Puts links to what Debian looks for elsewhere into a folder ($1) that has the tree in usr/lib/lotos.
put_links() {
    local tree=$1/usr/lib/lotos share=$1/usr/share name
    mkdir -p "$1/usr/bin" "$share/man/man1" "$share/bash-completion/completions" "$share/zsh/vendor-completions" \
        "$share/doc/lotos" || return
    ln -s ../lib/lotos/lotos "$1/usr/bin/lotos"
    cp "$tree/companions/completions/lotos.bash" "$share/bash-completion/completions/lotos"
    cp "$tree/companions/completions/_lotos" "$share/zsh/vendor-completions/_lotos"
    for name in $(commands_of "$tree"); do
        ln -s "../lib/lotos/companions/$name" "$1/usr/bin/$name"
        ln -s lotos "$share/bash-completion/completions/$name"
    done
    find "$tree/companions" -name '*.1' -exec cp {} "$share/man/man1" \;
    gzip -9n "$share"/man/man1/*.1
    for name in docs examples README.md; do ln -s "../../../lib/lotos/$name" "$share/doc/lotos/$name"; done
}

# The newest version of the C library that the program asks for.
libc_version() { grep -aoE 'GLIBC_2\.[0-9.]+' "$program" | sed 's/GLIBC_//' | sort -Vu | tail -n 1; }

# The packages of Debian that a tree's ($1) companions do more with.
recommended() {
    local pair found=
    for pair in $python_packages; do
        grep -rqE "^ *(import|from) ${pair%%:*}\b" --include='*.py' "$1/companions" && found+=", ${pair#*:}"
    done
    printf '%s' "${found#, }"
}

# Prints what dpkg wants to know of the package in a folder ($1).
control() {
    local more
    more=$(recommended "$1/usr/lib/lotos")
    cat <<END
Package: lotos
Version: $version
Architecture: amd64
Maintainer: ${DEBFULLNAME:-$(id -un)} <${DEBEMAIL:-$(id -un)@$(uname -n)}>
Installed-Size: $(du -sk "$1/usr" | cut -f1)
Depends: libc6 (>= $(libc_version)), python3 (>= 3.9)
${more:+Recommends: $more
}Section: devel
Priority: optional
Description: simulator for the specification language LOTOS (ISO 8807:1989)
 Reads a specification with its data types, prints which events are possible,
 takes those that are asked for, and keeps scenarios that others replay. Its
 answers are proved to follow from the texts and lines that it is given.
END
}

# Makes the Debian package of a tree ($1) in a folder of its own ($2).
make_deb() {
    mkdir -p "$2/usr/lib" "$2/DEBIAN" && cp -r "$1" "$2/usr/lib/lotos" && put_links "$2" &&
        control "$2" >"$2/DEBIAN/control" &&
        (cd "$2" && find usr -type f -print0 | LC_ALL=C sort -z | xargs -0 md5sum >DEBIAN/md5sums) &&
        chmod -R u=rwX,go=rX "$2" &&
        dpkg-deb --root-owner-group --build "$2" "$build/lotos_${version}_amd64.deb" >/dev/null
}

# Makes the archive of a tree ($1).
make_archive() {
    tar -C "${1%/*}" --sort=name --owner=0 --group=0 --numeric-owner --mtime="@$SOURCE_DATE_EPOCH" -czf \
        "$build/lotos-$version-linux-x86_64.tar.gz" "${1##*/}"
}

# Stops where there is no program of the text that stands here.
need_program() {
    [ -x "$program" ] || stop "there is no program yet: ./lotos build makes it"
    is_current "$program" "$build" src || stop "files of the program's crates are newer than it: ./lotos build makes it anew"
}

package() {
    local room version tree
    need_program
    version=$(cat "$root/VERSION")
    umask 022
    export SOURCE_DATE_EPOCH
    SOURCE_DATE_EPOCH=$(git -C "$root" log -1 --format=%ct 2>/dev/null || stat -c %Y "$root/VERSION")
    room=$(mktemp -d) || stop "there is no room for temporary files: set TMPDIR to a folder that can be written"
    # shellcheck disable=SC2064
    trap "rm -rf '$room'" EXIT
    trap 'exit 70' INT TERM HUP
    tree=$room/lotos-$version
    { mkdir -p "$build" && put_tree "$tree" && chmod -R u=rwX,go=rX "$tree" && make_archive "$tree"; } 2>/dev/null ||
        stop "cannot write into $build"
    say "build/lotos-$version-linux-x86_64.tar.gz stands: its folder runs wherever it is put"
    command -v dpkg-deb >/dev/null || stop "there is no dpkg-deb (of Debian's package dpkg), so there is no package"
    make_deb "$tree" "$room/deb" || stop "cannot write into $build"
    say "build/lotos_${version}_amd64.deb stands: apt-get install ./build/lotos_${version}_amd64.deb"
}
