# Completion of lotos, lotos-shell, lotos-trace, lotos-pairs, lotos-libs, lotos-induct, lotos-test, lotos-check, lotos-order, lotos-explore, lotos-flat, lotos-language-server and lotos-web for bash: source this file,
# or put it into a folder of bash-completion under these names. Written by companions/make-command-files.

# Files that begin with what is typed, with names of the given patterns, and folders.
_lotos_files() {
    local pattern
    compopt -o filenames 2>/dev/null
    mapfile -t COMPREPLY < <(
        for pattern in "$@"; do compgen -f -X "!$pattern" -- "$current"; done
        compgen -d -- "$current"
    )
}

# Words that begin with what is typed.
_lotos_words() {
    mapfile -t COMPREPLY < <(compgen -W "$1" -- "$current")
}

# Adds `with`, behind which stand the values of parameters.
_lotos_with() {
    if [[ with = "$current"* ]]; then COMPREPLY+=(with); fi
}

# Looks at the line, given the options that take a value: the word at the cursor, the one before, and the others that are
# no options and no values of options. Behind `with` nothing is known.
_lotos_look() {
    local place word skip=
    current=${COMP_WORDS[COMP_CWORD]} before=${COMP_WORDS[COMP_CWORD-1]} given=() closed=
    COMPREPLY=()
    for ((place = 1; place < COMP_CWORD; place++)); do
        word=${COMP_WORDS[place]}
        if [ -n "$skip" ]; then skip=
        elif [ "$word" = with ]; then closed=yes
        elif [[ $word != -* ]]; then given+=("$word")
        elif [[ " $1 " = *" $word "* ]]; then skip=yes
        fi
    done
}

_lotos() {
    local current before given closed
    _lotos_look ''
    case $before in
    esac
    [ -n "$closed" ] && return
    if [ ${#given[@]} -eq 0 ]; then _lotos_words 'check run demo flatten bisim induct build install'; return; fi
    case ${given[0]} in
        check)
            case ${#given[@]} in
                1) _lotos_files '*.lotos' ;;
                2) _lotos_files '*.order' '*.lotos'; _lotos_with ;;
                3) _lotos_with ;;
            esac
            ;;
        run)
            case ${#given[@]} in
                1) _lotos_files '*.lotos' ;;
                2) _lotos_files '*.order' '*.lotos'; _lotos_with ;;
                3) _lotos_with ;;
            esac
            ;;
        demo)
            case ${#given[@]} in
                1) : ;;
            esac
            ;;
        flatten)
            case ${#given[@]} in
                1) _lotos_files '*.lotos' ;;
                2) _lotos_files '*.order' '*.lotos' ;;
            esac
            ;;
        bisim)
            case ${#given[@]} in
                1) _lotos_files '*.lotos' ;;
                2) _lotos_files '*.lotos' ;;
                3) _lotos_files '*.pairs' ;;
            esac
            ;;
        induct)
            case ${#given[@]} in
                1) _lotos_files '*.lotos' ;;
                2) _lotos_files '*.proofs' ;;
            esac
            ;;
        build)
            case ${#given[@]} in
            esac
            ;;
        install)
            case ${#given[@]} in
                1) _lotos_files ;;
            esac
            ;;
    esac
}

_lotos_shell() {
    local current before given closed
    _lotos_look '--program --color'
    case $before in
        --program) _lotos_files '*'; return ;;
        --color) _lotos_words 'auto always never'; return ;;
    esac
    [ -n "$closed" ] && return
    if [[ $current = -* ]]; then _lotos_words '--program --numbers --names --plain --color --version --help'; return; fi
    case ${#given[@]} in
        0) _lotos_files '*.lotos' ;;
        1) _lotos_files '*.order' '*.lotos'; _lotos_with ;;
        2) _lotos_with ;;
    esac
}

_lotos_trace() {
    local current before given closed
    _lotos_look '--program --old-order --new-order'
    case $before in
        --program) _lotos_files '*'; return ;;
        --old-order) _lotos_files '*.order' '*.lotos'; return ;;
        --new-order) _lotos_files '*.order' '*.lotos'; return ;;
    esac
    [ -n "$closed" ] && return
    if [[ $current = -* ]]; then _lotos_words '--program --numbers --names --no-names --states --components --png --visible --old-order --new-order --json --version --help'; return; fi
    if [ ${#given[@]} -eq 0 ]; then _lotos_words 'show chart page scenario rebase diff'; return; fi
    case ${given[0]} in
        show)
            case ${#given[@]} in
                1) _lotos_files '*.trace' ;;
                2) _lotos_files '*.lotos' ;;
                3) _lotos_files '*.order' '*.lotos'; _lotos_with ;;
                4) _lotos_with ;;
            esac
            ;;
        chart)
            case ${#given[@]} in
                1) _lotos_files '*.trace' ;;
                2) _lotos_files '*.lotos' ;;
                3) _lotos_files '*.order' '*.lotos'; _lotos_with ;;
                4) _lotos_with ;;
            esac
            ;;
        page)
            case ${#given[@]} in
                1) _lotos_files '*.trace' ;;
                2) _lotos_files '*.lotos' ;;
                3) _lotos_files '*.order' '*.lotos'; _lotos_with ;;
                4) _lotos_with ;;
            esac
            ;;
        scenario)
            case ${#given[@]} in
                1) _lotos_files '*.scenario' '*.session' '*.trace' ;;
                2) _lotos_files '*.lotos' ;;
                3) _lotos_files '*.order' '*.lotos'; _lotos_with ;;
                4) _lotos_with ;;
            esac
            ;;
        rebase)
            case ${#given[@]} in
                1) _lotos_files '*.trace' ;;
                2) _lotos_files '*.lotos' ;;
                3) _lotos_files '*.lotos' ;;
                4) _lotos_with ;;
            esac
            ;;
        diff)
            case ${#given[@]} in
                1) _lotos_files '*.trace' ;;
                2) _lotos_files '*.lotos' ;;
                3) _lotos_files '*.lotos' ;;
                4) _lotos_with ;;
            esac
            ;;
    esac
}

_lotos_pairs() {
    local current before given closed
    _lotos_look '--program --states --seconds --values --jobs --into'
    case $before in
        --program) _lotos_files '*'; return ;;
        --states) :; return ;;
        --seconds) :; return ;;
        --values) :; return ;;
        --jobs) :; return ;;
        --into) _lotos_files; return ;;
    esac
    [ -n "$closed" ] && return
    if [[ $current = -* ]]; then _lotos_words '--program --states --seconds --values --jobs --into --json --version --help'; return; fi
    case ${#given[@]} in
        0) _lotos_files '*.lotos' ;;
        1) _lotos_files '*.lotos' ;;
    esac
}

_lotos_libs() {
    local current before given closed
    _lotos_look ''
    case $before in
    esac
    [ -n "$closed" ] && return
    if [[ $current = -* ]]; then _lotos_words '--json --force --version --help'; return; fi
    if [ ${#given[@]} -eq 0 ]; then _lotos_words 'list show add diff'; return; fi
    case ${given[0]} in
        list)
            case ${#given[@]} in
            esac
            ;;
        show)
            case ${#given[@]} in
                1) : ;;
            esac
            ;;
        add)
            case ${#given[@]} in
                *) : ;;
            esac
            ;;
        diff)
            case ${#given[@]} in
                *) : ;;
            esac
            ;;
    esac
}

_lotos_induct() {
    local current before given closed
    _lotos_look '--program --seconds'
    case $before in
        --program) _lotos_files '*'; return ;;
        --seconds) :; return ;;
    esac
    [ -n "$closed" ] && return
    if [[ $current = -* ]]; then _lotos_words '--program --interactive --seconds --json --version --help'; return; fi
    case ${#given[@]} in
        0) _lotos_files '*.lotos' ;;
        1) _lotos_files '*.goals' '*.proofs' ;;
    esac
}

_lotos_test() {
    local current before given closed
    _lotos_look '--program --jobs --shard --junit --coverage-page --time --states --old'
    case $before in
        --program) _lotos_files '*'; return ;;
        --jobs) :; return ;;
        --shard) :; return ;;
        --junit) _lotos_files '*'; return ;;
        --coverage-page) _lotos_files '*'; return ;;
        --time) :; return ;;
        --states) :; return ;;
        --old) _lotos_files; return ;;
    esac
    [ -n "$closed" ] && return
    if [[ $current = -* ]]; then _lotos_words '--program --jobs --shard --junit --coverage --coverage-page --time --states --rebase --old --list --verbose --json --version --help'; return; fi
    case ${#given[@]} in
        *) _lotos_files '*.scenario' '*.session' '*.trace' ;;
    esac
}

_lotos_check() {
    local current before given closed
    _lotos_look '--program --color --picture'
    case $before in
        --program) _lotos_files '*'; return ;;
        --color) _lotos_words 'auto always never'; return ;;
        --picture) _lotos_files '*'; return ;;
    esac
    [ -n "$closed" ] && return
    if [[ $current = -* ]]; then _lotos_words '--program --color --json --watch --bare --outline --picture --version --help'; return; fi
    case ${#given[@]} in
        0) _lotos_files '*.lotos' ;;
        1) _lotos_files '*.order' '*.lotos'; _lotos_with ;;
        2) _lotos_with ;;
    esac
}

_lotos_order() {
    local current before given closed
    _lotos_look '--program -o'
    case $before in
        --program) _lotos_files '*'; return ;;
        -o) _lotos_files '*.order' '*.lotos'; return ;;
    esac
    [ -n "$closed" ] && return
    if [[ $current = -* ]]; then _lotos_words '--program -o --list --json --version --help'; return; fi
    case ${#given[@]} in
        0) _lotos_files '*.lotos' ;;
        1) _lotos_with ;;
    esac
}

_lotos_explore() {
    local current before given closed
    _lotos_look '--program --values --states --seconds --depth --jobs --scenarios --aut --dot --svg --traces'
    case $before in
        --program) _lotos_files '*'; return ;;
        --values) :; return ;;
        --states) :; return ;;
        --seconds) :; return ;;
        --depth) :; return ;;
        --jobs) :; return ;;
        --scenarios) :; return ;;
        --aut) _lotos_files '*'; return ;;
        --dot) _lotos_files '*'; return ;;
        --svg) _lotos_files '*'; return ;;
        --traces) _lotos_files; return ;;
    esac
    [ -n "$closed" ] && return
    if [[ $current = -* ]]; then _lotos_words '--program --values --states --seconds --depth --jobs --scenarios --aut --dot --svg --traces --json --version --help'; return; fi
    case ${#given[@]} in
        0) _lotos_files '*.lotos' ;;
        1) _lotos_files '*.order' '*.lotos'; _lotos_with ;;
        2) _lotos_with ;;
    esac
}

_lotos_flat() {
    local current before given closed
    _lotos_look '--program --find'
    case $before in
        --program) _lotos_files '*'; return ;;
        --find) :; return ;;
    esac
    [ -n "$closed" ] && return
    if [[ $current = -* ]]; then _lotos_words '--program --find --text --json --version --help'; return; fi
    case ${#given[@]} in
        0) _lotos_files '*.lotos' ;;
        1) _lotos_files '*.order' '*.lotos' ;;
    esac
}

_lotos_language_server() {
    local current before given closed
    _lotos_look '--program'
    case $before in
        --program) _lotos_files '*'; return ;;
    esac
    [ -n "$closed" ] && return
    if [[ $current = -* ]]; then _lotos_words '--program --version --help'; return; fi
    case ${#given[@]} in
    esac
}

_lotos_web() {
    local current before given closed
    _lotos_look '--program --beside --folder --port --wait'
    case $before in
        --program) _lotos_files '*'; return ;;
        --beside) _lotos_files '*.lotos'; return ;;
        --folder) _lotos_files; return ;;
        --port) :; return ;;
        --wait) :; return ;;
    esac
    [ -n "$closed" ] && return
    if [[ $current = -* ]]; then _lotos_words '--program --numbers --no-names --beside --folder --port --wait --no-browser --version --help'; return; fi
    case ${#given[@]} in
        0) _lotos_files '*.lotos' ;;
        1) _lotos_files '*.order' '*.lotos'; _lotos_with ;;
        2) _lotos_with ;;
    esac
}

complete -F _lotos lotos
complete -F _lotos_shell lotos-shell
complete -F _lotos_trace lotos-trace
complete -F _lotos_pairs lotos-pairs
complete -F _lotos_libs lotos-libs
complete -F _lotos_induct lotos-induct
complete -F _lotos_test lotos-test
complete -F _lotos_check lotos-check
complete -F _lotos_order lotos-order
complete -F _lotos_explore lotos-explore
complete -F _lotos_flat lotos-flat
complete -F _lotos_language_server lotos-language-server
complete -F _lotos_web lotos-web
