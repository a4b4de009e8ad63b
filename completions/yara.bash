# Completion of Tegwolish's yara for bash: commands, flags, names of files, external variables.

_tegwolish_commands='scan compile check work help version'

# Sorts the words before the present one into `names` and `externals`, and sets `is_image` where -C
# stands among them. readline takes `=` and `:` for words of their own, so they are joined again.
_tegwolish_sort() {
    local word at is_joined='' joined=()
    for ((at = 2; at < COMP_CWORD; at++)); do
        word=${COMP_WORDS[at]}
        if [[ $word == [=:] && ${#joined[@]} -gt 0 ]]; then
            joined[-1]+=$word is_joined=yes
        elif [[ $is_joined ]]; then
            joined[-1]+=$word is_joined=''
        else
            joined+=("$word")
        fi
    done
    for word in "${joined[@]}"; do
        case $word in
        --*) ;;
        -?*) [[ $word == *C* ]] && is_image=yes ;;
        *=*) externals+=("$word") ;;
        *) names+=("$word") ;;
        esac
    done
}

# The external variable that the rules ask for next, as the program names it: `NAME=`.
_tegwolish_external() {
    [[ $is_image ]] && return
    "${COMP_WORDS[0]}" check "${names[@]:0:$1}" "${externals[@]}" 2>&1 >/dev/null |
        sed -n 's/.*: UnknownName [^ ]* \([A-Za-z_][A-Za-z0-9_]*\)$/\1=/p'
}

_tegwolish() {
    local present=${COMP_WORDS[COMP_CWORD]} command=${COMP_WORDS[1]-} flags='' least=2
    local names=() externals=() is_image=''
    local IFS=$'\n'
    COMPREPLY=()
    if ((COMP_CWORD == 1)); then
        mapfile -t COMPREPLY < <(compgen -W "${_tegwolish_commands// /$'\n'}" -- "$present")
        return
    fi
    case $command in
    help)
        ((COMP_CWORD > 2)) ||
            mapfile -t COMPREPLY < <(compgen -W $'scan\ncompile\ncheck\nwork' -- "$present")
        return
        ;;
    scan) flags=$'-s\n-g\n-m\n-n\n-c\n-e\n-C\n--stats\n--help' ;;
    compile) flags='--help' ;;
    check) flags='--help' least=1 ;;
    *) return ;;
    esac
    if [[ $present == -* ]]; then
        mapfile -t COMPREPLY < <(compgen -W "$flags" -- "$present")
        return
    fi
    if [[ $present == '=' || ${COMP_WORDS[COMP_CWORD - 1]} == '=' ]]; then
        mapfile -t COMPREPLY < <(compgen -W $'true\nfalse' -- "${present#=}")
        return
    fi
    present=${present#:}
    _tegwolish_sort
    if ((${#externals[@]} == 0)); then
        compopt -o filenames 2>/dev/null
        mapfile -t COMPREPLY < <(compgen -f -- "$present")
    fi
    if ((${#names[@]} >= least)); then
        # All but the target or the output are rules.
        mapfile -t -O "${#COMPREPLY[@]}" COMPREPLY < <(
            compgen -W "$(_tegwolish_external $((${#names[@]} - least + 1)))" -- "$present"
        )
        [[ ${COMPREPLY[*]} == *= ]] && compopt -o nospace 2>/dev/null
    fi
}

complete -F _tegwolish yara
