#!/usr/bin/env bash
# Installs built programs below FOLDER, stripped, with their manual pages and completions, and the licences, the README
# and the changelog; or removes all of that:
#
#     tools/install.sh install|remove FOLDER GREP_NAME PROGRAM..
#
# GREP_NAME is what grep is called there. The pages speak of it by that name; its messages still begin with `grep:`.
# README and changelog link to the pages of the repository where they are published.
set -euo pipefail
cd "$(dirname "${BASH_SOURCE[0]}")/.."
verb=$1 folder=$2 grep_name=$3
programs=("${@:4}")

# Installs SOURCE with MODE as a file below the folder, or removes that: put FILE MODE SOURCE
put() {
    if [[ $verb == remove ]]; then rm -f "$folder/$1"; else install -D -m "$2" "$3" "$folder/$1"; fi
}

# A manual page. GNU grep, where .Nm stands for that too, keeps its name.
page_of() {
    local named='^\.(Nm|Xr|Ql|Dl .*[|$]) grep( .*)?$'
    if [[ $grep_name == grep ]]; then cat "man/$1.1"; return; fi
    sed -E "s/$named/.\1 $grep_name\2/; s/^\.Dt GREP/.Dt ${grep_name^^}/; /GNU$/ { n; s/^\.Nm/.Nm grep/ }" "man/$1.1"
}

# A page whose links to other files are absolute.
linked() {
    local homepage
    homepage=$(sed -n 's/^Homepage: //p' dist/debian/control)
    sed -E "s|\]\(([^):#]+(#[^)]*)?)\)|]($homepage/\1)|g" "$1"
}

# What completes a program in a shell. For bash and fish the options of grep are those in its file for zsh.
completions_of() {
    local option="^ *'(\([^)]*\))?\*?-(.)\+?\[(.*)\]"
    case $1.$2 in
        grep.bash) sed "s/OPTIONS/$(sed -nE "s/$option.*/-\2/p" completions/grep.zsh | paste -s -d ' ')/" completions/grep.bash ;;
        grep.fish)
            sed -nE "s/$option:.*_files.*/complete -c grep -s \2 -r -F -d '\3'/p
                s/$option:.*/complete -c grep -s \2 -x -d '\3'/p
                s/$option.*/complete -c grep -s \2 -d '\3'/p" completions/grep.zsh ;;
        *) cat "completions/$1.$2" ;;
    esac | sed -E "/^(complete|#compdef) /s/\bgrep\b/$grep_name/"
}

for program in "${programs[@]}"; do
    name=$program
    if [[ $program == grep ]]; then name=$grep_name; fi
    if [[ $verb == install ]]; then tools/strip.sh "$program"; fi
    put "bin/$name" 755 "build/stripped/$program"
    put "share/man/man1/$name.1" 644 <(page_of "$program")
    put "share/bash-completion/completions/$name" 644 <(completions_of "$program" bash)
    # Not _grep, a function of zsh that completes egrep too.
    put "share/zsh/site-functions/_gaxtrel_$name" 644 <(completions_of "$program" zsh)
    put "share/fish/vendor_completions.d/$name.fish" 644 <(completions_of "$program" fish)
done
for text in LICENSE-APACHE LICENSE-MIT; do put "share/doc/gaxtrel/$text" 644 "$text"; done
for text in README.md CHANGELOG.md; do put "share/doc/gaxtrel/$text" 644 <(linked "$text"); done
if [[ $verb == remove && -d $folder/share/doc/gaxtrel ]]; then
    rmdir --ignore-fail-on-non-empty "$folder/share/doc/gaxtrel"
fi
