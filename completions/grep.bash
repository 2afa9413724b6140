# Completions of grep for bash: options, and the names of files.
#
# bash-completion reads this file by itself for a name that it has no completions for, as gaxgrep. It has some of GNU
# grep for the name grep; there ~/.bashrc has to source this file.

_gaxtrel_grep() {
    local word=${COMP_WORDS[COMP_CWORD]} before=${COMP_WORDS[COMP_CWORD - 1]}
    COMPREPLY=()
    if [[ $before == -[ABCe] ]]; then
        return
    elif [[ $word == -* && $before != -f ]]; then
        mapfile -t COMPREPLY < <(compgen -W 'OPTIONS' -- "$word")
    else
        mapfile -t COMPREPLY < <(compgen -f -- "$word")
    fi
}
complete -o filenames -F _gaxtrel_grep grep
