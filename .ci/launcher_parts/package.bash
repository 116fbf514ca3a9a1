# shellcheck shell=bash
# The package and the archive: unpacked into an empty root, what they put there runs.
anew
call package
is 'a package of nothing' '70 lotos: there is no program yet: ./lotos build makes it' "$status $err"
cp -r "$source/companions" "$source/docs" "$source/examples" "$house"
packed=$source/crates/lotos_main/out/lotos_main
[ -x "$packed" ] || packed=/bin/echo
mkdir -p "$house/crates/lotos_main/out"
cp "$packed" "$house/crates/lotos_main/out/lotos_main"
version=$(cat "$source/VERSION")
call package
if command -v dpkg-deb >/dev/null; then
    is 'a package' 0 "$status"
    has 'what is said of it' "*lotos-$version-linux-x86_64.tar.gz stands*lotos_${version}_amd64.deb stands*" "$err"
    mkdir "$folder/root"
    dpkg-deb -x "$house/build/lotos_${version}_amd64.deb" "$folder/root" || complain 'the package cannot be unpacked'
    is 'the version of the package' "$version" "$(dpkg-deb -f "$house/build/lotos_${version}_amd64.deb" Version)"
else
    echo 'launcher: left out: the package, since there is no dpkg-deb' >&2
fi
mkdir "$folder/unpacked"
tar -xzf "$house/build/lotos-$version-linux-x86_64.tar.gz" -C "$folder/unpacked" || complain 'the archive cannot be unpacked'

# stands WHAT ROOT LOTOS COMPANIONS: what was unpacked has all files, and its commands run in an empty environment.
stands() {
    local what=$1 root=$2 lotos=$3 companions=$4 missing name tree
    tree=$(dirname "$(readlink -f "$lotos")")
    is "links of $what that lead nowhere" '' "$(find "$root" -xtype l)"
    is "what $what is not to have" '' "$(find "$root" -name '__pycache__' -o -name tests -o -name 'make-*' -o -name GATE.md)"
    missing=$(ldd "$tree/lotos.program" 2>&1 | grep 'not found')
    is "libraries that $what lacks" '' "$missing"
    for name in docs/TUTORIAL.md examples/dispenser.lotos VERSION companions/editors companions/lotos_companion/session.py; do
        [ -e "$tree/$name" ] || complain "$what has no $name"
    done
    is "the version of $what" "0 lotos $version" "$(env -i PATH=/usr/local/bin:/usr/bin:/bin "$lotos" --version | sed 's/^/0 /')"
    name=$(cd "$tree/examples" && env -i PATH=/usr/local/bin:/usr/bin:/bin "$lotos" check dispenser.lotos)
    is "the program of $what" "$(cd "$source/examples" && "$packed" check dispenser.lotos)" "$name"
    for name in "$source"/companions/lotos-*; do
        [ -x "$name" ] || continue
        env -i PATH=/usr/local/bin:/usr/bin:/bin "$companions/$(basename "$name")" --help >"$folder/out" 2>&1 ||
            complain "$what: $(basename "$name") --help says $(cat "$folder/out")"
    done
}
stands 'the archive' "$folder/unpacked" "$folder/unpacked/lotos-$version/lotos" "$folder/unpacked/lotos-$version/companions"
if [ -d "$folder/root" ]; then
    stands 'the package' "$folder/root" "$folder/root/usr/bin/lotos" "$folder/root/usr/bin"
    for name in "$folder/root/usr/share/man/man1/lotos.1.gz" "$folder/root/usr/share/bash-completion/completions/lotos" \
        "$folder/root/usr/share/zsh/vendor-completions/_lotos" "$folder/root/usr/share/doc/lotos/docs/USAGE.md"; do
        [ -e "$name" ] || complain "the package has no ${name#"$folder"/root}"
    done
fi
touch -d '1 hour' "$house/crates/lotos_main/src/lib.rt"
call package
has 'a package of an earlier text' '70 lotos: files of the program*newer than it*' "$status $err"
no_calls 'a package'
rm -rf "$house"/{companions,docs,examples} "$house/crates/lotos_main/out"
