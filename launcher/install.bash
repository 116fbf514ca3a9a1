# shellcheck shell=bash
# A place in the PATH.

mark='# Starts the program lotos with all the stack that it may have. Put here by: lotos install'

# Prints the script that starts the program lotos.program beside it.
starter() {
    cat <<END
#!/bin/sh
$mark
if [ "\$*" = --version ]; then echo 'lotos $(cat "$root/VERSION")'; exit; fi
ulimit -S -s "\$(ulimit -H -s)" 2>/dev/null
exec "\$(dirname "\$(readlink -f "\$0")")/lotos.program" "\$@"
END
}

# Puts the program and what starts it into a folder ($1).
put_program() {
    cp "$program" "$1/lotos.program.new" && mv -f "$1/lotos.program.new" "$1/lotos.program" &&
        starter >"$1/lotos.new" && chmod 755 "$1/lotos.new" "$1/lotos.program" && mv -f "$1/lotos.new" "$1/lotos"
}

# Prints the first folder of one's own in the PATH, or /usr/local/bin.
own_folder() {
    local folder
    for folder in "${HOME-}/.local/bin" "${HOME-}/bin" /usr/local/bin; do
        [[ :$PATH: = *:$folder:* && -d $folder && -w $folder ]] && printf '%s' "$folder" && return
    done
}

install() {
    local folder=${1-$(own_folder)}
    [ -x "$program" ] || stop "there is no program yet: ./lotos build makes it"
    is_current "$program" "$build" src || say "files of the program's crates are newer than it: ./lotos build makes it anew"
    [ -n "$folder" ] || stop "no folder of the PATH can be written: name one, as in ./lotos install FOLDER"
    [ -d "$folder" ] && folder=$(cd "$folder" && pwd)
    if [ -e "$folder/lotos" ] && ! grep -qxF "$mark" "$folder/lotos" 2>/dev/null; then
        stop "$folder/lotos is another program: name another folder"
    fi
    put_program "$folder" 2>/dev/null || stop "cannot write into $folder"
    say "lotos stands in $folder"
    [[ :$PATH: = *:$folder:* ]] || say "that folder is not in the PATH"
}
