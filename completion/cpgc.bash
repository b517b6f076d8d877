# Completion of cpgc's words in bash.

# The names of the nodes of a pack: a byte of length before each, behind the first seven bytes. Lawful names alone, which no shell reads as
# anything else.
_cpgc_nodes() {
    local bytes at count name
    [[ -f $1 && -r $1 ]] || return
    mapfile -t bytes < <(od -A n -v -t u1 -w1 -N 600 -- "$1" 2>/dev/null | tr -d ' ')
    [[ ${bytes[*]:0:4} == "67 80 71 84" ]] || return
    for ((at = 7, count = ${bytes[6]:-0}; count > 0; count--)); do
        name=$(printf '\\x%02x' "${bytes[@]:at + 1:${bytes[at]:-0}}")
        name=$(printf '%b' "$name" | tr -d '\0')
        [[ $name =~ ^[A-Za-z0-9_.-]+$ ]] || return
        printf '%s\n' "$name"
        ((at += 1 + bytes[at]))
    done
}

_cpgc() {
    local word=${COMP_WORDS[COMP_CWORD]} before=${COMP_WORDS[COMP_CWORD - 1]} command=${COMP_WORDS[1]}
    COMPREPLY=()
    if ((COMP_CWORD == 1)); then
        mapfile -t COMPREPLY < <(compgen -W "show compile check play node hyper tune audit live trial" -- "$word")
        return
    fi
    # which of the words behind the command this is, without --turns and its value
    local place=1 number
    for ((number = 2; number < COMP_CWORD; number++)); do
        if [[ ${COMP_WORDS[number]} == --turns ]]; then ((number++)); else ((place++)); fi
    done
    local kind
    case $command,$place in
        play,*)
            if [[ $before == --turns ]]; then
                kind=number
            elif [[ $word == -* ]] || ((place > 3)); then
                kind=turns
            elif ((place == 2)); then
                kind=pack
            else
                kind=toml
            fi
            ;;
        show,1 | compile,1 | tune,1 | check,1 | audit,1) kind=toml ;;
        check,2 | audit,2 | node,1 | live,1) kind=pack ;;
        node,2 | live,2) kind=node ;;
        audit,3 | live,3) kind=any ;;
        hyper,[2468]) kind=toml ;;
        *) kind=number ;;
    esac
    case $kind in
        turns) mapfile -t COMPREPLY < <(compgen -W "--turns" -- "$word") ;;
        node) mapfile -t COMPREPLY < <(compgen -W "$(_cpgc_nodes "$before")" -- "$word") ;;
        toml) _cpgc_files "$word" toml ;;
        pack) _cpgc_files "$word" pack ;;
        any) _cpgc_files "$word" ;;
    esac
}

# Folders, and the files with an ending; all files where there are none such.
_cpgc_files() {
    local found=() it
    compopt -o filenames 2>/dev/null
    mapfile -t COMPREPLY < <(compgen -f -- "$1")
    [[ ${2-} ]] || return
    for it in "${COMPREPLY[@]}"; do
        [[ -d $it || $it == *.$2 ]] && found+=("$it")
    done
    ((${#found[@]})) && COMPREPLY=("${found[@]}")
}

# The words of a tool: its options, as its --help has them, else graph files and packs.
_cpgc_tool() {
    local word=${COMP_WORDS[COMP_CWORD]} toml=() pack=()
    COMPREPLY=()
    if [[ $word == -* ]]; then
        mapfile -t COMPREPLY < <(compgen -W "$("$1" --help 2>/dev/null | grep -oE -- '(^|[ [])--[a-z-]+' | grep -oE -- '--[a-z-]+' | sort -u)" -- "$word")
        return
    fi
    _cpgc_files "$word" toml
    toml=("${COMPREPLY[@]}")
    _cpgc_files "$word" pack
    pack=("${COMPREPLY[@]}")
    mapfile -t COMPREPLY < <(printf '%s\n' "${toml[@]}" "${pack[@]}" | sed '/^$/d' | sort -u)
}

complete -F _cpgc cpgc
complete -F _cpgc_tool cpgc-c-table cpgc-compare cpgc-cycle cpgc-draw cpgc-explain cpgc-explore cpgc-from-tgff cpgc-hyper-edges cpgc-jitter cpgc-lint cpgc-pack \
    cpgc-page cpgc-slack cpgc-stream cpgc-timeline cpgc-tuned cpgc-why
