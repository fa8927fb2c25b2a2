# Completions of bash for bnc and the tools beside it. `make install` puts this file where bash-completion looks for it; else source it.

# The options of a tool, or of a command of bnc.
_bnc_options() {
    case $1 in
        solve) echo "--nodes --cuts --workers --upper" ;;
        resume | drill) echo "--nodes --cuts --workers" ;;
        bnc-check) echo "--upper --strict --help" ;;
        bnc-solution) echo "--json --csv --all --model --help" ;;
        bnc-report) echo "--upper --help" ;;
        bnc-watch) echo "--every --bnc --help" ;;
        bnc-convert) echo "--format --upper --output --help" ;;
    esac
}

# The words of `$1` that don't stand on the line yet and begin with the word that is typed.
_bnc_unused() {
    local word
    for word in $1; do
        case " ${COMP_WORDS[*]:1:COMP_CWORD-1} " in
            *" $word "*) ;;
            *) [[ $word == "$2"* ]] && COMPREPLY+=("$word") ;;
        esac
    done
}

_bnc_files() {
    local line
    compopt -o filenames 2>/dev/null
    while IFS= read -r line; do COMPREPLY+=("$line"); done < <(compgen -f -- "$1")
}

_bnc() {
    local tool=${1##*/} typed=$2 before=$3
    COMPREPLY=()
    if [[ $tool == bnc ]]; then
        if ((COMP_CWORD == 1)); then
            _bnc_unused "solve resume show drill" "$typed"
            return
        fi
        tool=${COMP_WORDS[1]}
        [[ $tool == drill && COMP_CWORD -eq 2 && $typed != -* ]] && return
    fi
    case $before in
        --format) _bnc_unused "lp mps opb" "$typed" ;;
        --nodes | --cuts | --workers | --upper | --every) ;;
        --model | --output | --bnc) _bnc_files "$typed" ;;
        *)
            if [[ $typed == -* ]]; then
                _bnc_unused "$(_bnc_options "$tool")" "$typed"
            else
                _bnc_files "$typed"
            fi
            ;;
    esac
}

complete -F _bnc bnc bnc-check bnc-solution bnc-report bnc-watch bnc-convert
