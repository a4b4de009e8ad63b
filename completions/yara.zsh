#compdef yara
# Completion of Tegwolish's yara for zsh: commands, flags, names of files, external variables.

# The external variable that the rules ask for next, as the program names it.
_tegwolish_externals() {
    local -a names externals found
    local word least=$1
    for word in "${(@)words[2,CURRENT-1]}"; do
        case $word in
        -?*) [[ $word == *C* && $word != --* ]] && return 1 ;;
        *=*) externals+=("$word") ;;
        *) names+=("$word") ;;
        esac
    done
    (( $#names >= least )) || return 1
    found=(${(f)"$("$service_command" check "${(@)names[1,$#names-least+1]}" "${externals[@]}" \
        2>&1 >/dev/null |
        sed -n 's/.*: UnknownName [^ ]* \([A-Za-z_][A-Za-z0-9_]*\)$/\1/p')"})
    (( $#found )) && compadd -S = -- $found
}

_tegwolish_names() {
    if [[ $words[CURRENT] == *=* ]]; then
        compset -P '*='
        compadd -- true false
        return
    fi
    _files
    _tegwolish_externals $1
}

_tegwolish() {
    local service_command=$words[1] state line
    local -a commands
    commands=(
        'scan:which rules hold of a file'
        'compile:check rules and save them as an image'
        'check:say how many rules there are, or what is wrong with them'
        'work:make rules and a file from a number, and scan it'
        'help:the forms of the commands'
        'version:which program this is'
    )
    _arguments -C '1: :->command' '*:: :->words'
    case $state in
    command) _describe command commands ;;
    words)
        case $line[1] in
        scan)
            _arguments -s '*-s[a line for each match]' '*-g[tags]' '*-m[meta]' \
                '*-n[rules that do not hold]' '*-c[only the number of rules]' '*-e[namespaces]' \
                '*-C[the first name is an image]' '--stats[the number of hits of the atoms]' \
                '--help[the form of the command]' '*: :_tegwolish_names 2'
            ;;
        compile) _arguments '--help[the form of the command]' '*: :_tegwolish_names 2' ;;
        check) _arguments '--help[the form of the command]' '*: :_tegwolish_names 1' ;;
        help) compadd -- scan compile check work ;;
        esac
        ;;
    esac
}

_tegwolish "$@"
