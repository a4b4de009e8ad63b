# Completion of Tegwolish's yara for fish: commands, flags, names of files, external variables.
set -l name yara

# Whether no command stands on the line yet.
function __tegwolish_first
    test (count (commandline -opc)) -eq 1
end

# Whether the command is one of these.
function __tegwolish_command
    set -l words (commandline -opc)
    test (count $words) -ge 2; and contains -- $words[2] $argv
end

# The external variable that the rules ask for next, as the program names it: NAME=.
function __tegwolish_externals
    set -l words (commandline -opc)
    set -l least 2
    test "$words[2]" = check; and set least 1
    set -l names
    set -l externals
    for word in $words[3..-1]
        if string match -q -- '--*' $word
            continue
        else if string match -qr -- '^-.' $word
            string match -q -- '*C*' $word; and return
        else if string match -q -- '*=*' $word
            set -a externals $word
        else
            set -a names $word
        end
    end
    set -l last (math (count $names) - $least + 1)
    test $last -ge 1; or return
    $words[1] check $names[1..$last] $externals 2>&1 >/dev/null |
        string replace -rf '.*: UnknownName \S+ ([A-Za-z_]\w*)$' '$1='
end

complete -c $name -e
complete -c $name -n __tegwolish_first -f -a scan -d 'which rules hold of a file'
complete -c $name -n __tegwolish_first -f -a compile -d 'save rules as an image'
complete -c $name -n __tegwolish_first -f -a check -d 'what is wrong with rules'
complete -c $name -n __tegwolish_first -f -a work -d 'make rules and a file from a number'
complete -c $name -n __tegwolish_first -f -a help -d 'the forms of the commands'
complete -c $name -n __tegwolish_first -f -a version -d 'which program this is'
complete -c $name -n '__tegwolish_command help' -f -a 'scan compile check work'
complete -c $name -n '__tegwolish_command work version' -f
complete -c $name -n '__tegwolish_command scan' -s s -d 'a line for each match'
complete -c $name -n '__tegwolish_command scan' -s g -d 'tags'
complete -c $name -n '__tegwolish_command scan' -s m -d 'meta'
complete -c $name -n '__tegwolish_command scan' -s n -d 'rules that do not hold'
complete -c $name -n '__tegwolish_command scan' -s c -d 'only the number of rules'
complete -c $name -n '__tegwolish_command scan' -s e -d 'namespaces'
complete -c $name -n '__tegwolish_command scan' -s C -d 'the first name is an image'
complete -c $name -n '__tegwolish_command scan' -l stats -d 'the number of hits of the atoms'
complete -c $name -n '__tegwolish_command scan compile check' -l help -d 'the form of the command'
complete -c $name -n '__tegwolish_command scan compile check' -a '(__tegwolish_externals)'
