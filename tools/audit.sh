#!/usr/bin/env bash
# Tries the wrong bodies that the gate leaves out, crates/*/audit/*.edit: the prover has to refuse each. With names of
# crates it tries those of these crates alone, with `--changed COMMIT` those of crates with a file that differs from
# the commit's. rt reads such edits in must-fail alone, and one run of it tries one edit after the other. So each crate
# has a copy of the files as they stand, in which its audit takes the place of the gate's own edits, and RT_JOBS crates
# are tried at once. Libraries that are proved in this checkout are not proved again. Ends with status 0 only where
# each edit was refused. A check that stopped at a limit of the prover shows nothing of its edit, so rt's word
# "refused" counts for nothing there.
set -euo pipefail
shopt -s nullglob
cd "$(dirname "${BASH_SOURCE[0]}")/.."
copies=$(mktemp -d)
trap 'trap "" INT TERM; kill $(jobs -p) 2> /dev/null || true; wait; rm -rf "$copies"' EXIT
trap 'exit 130' INT TERM HUP
lanes=${RT_JOBS:-2}

# Copies the crates as they stand, new files too, but none that git ignores, and what is proved of them: not as links,
# since rt loses what it kept of a library whose files a copy shares.
copy_crates() {
    local file present=()
    while IFS= read -r -d '' file; do
        if [ -f "$file" ]; then present+=("$file"); fi
    done < <(git ls-files -z --cached --others --exclude-standard HANDLES crates.txt crates)
    cp --parents --target-directory="$1" -- "${present[@]}"
    for file in crates/*/out/rlib; do cp -a --no-preserve=links --parents --target-directory="$1" -- "$file"; done
}

# Puts a crate's audit in the place of its must-fail edits, and counts it; a page beside the edits is none.
prepare() {
    local file
    mkdir "$copies/$1"
    copy_crates "$copies/$1"
    rm -rf "$copies/$1/crates/$1/must-fail"
    mv "$copies/$1/crates/$1/audit" "$copies/$1/crates/$1/must-fail"
    for file in "$copies/$1/crates/$1/must-fail"/*; do
        case $file in
            *.md) ;;
            *) edits=$((edits + 1)) ;;
        esac
    done
}

# Tries a crate's edits, and shows what rt says at their end.
try_edits() {
    local said
    said=$(cd "$copies/$1" && rt must-fail "$1" 2>&1) || true
    printf '%s\n' "$said"
    rm -rf "${copies:?}/$1"
}

count() {
    local line
    while IFS= read -r line; do
        case $line in
            "rt: must-fail "*": refused, as it must be (only by a limit"*) stopped=$((stopped + 1)) ;;
            "rt: must-fail "*": refused, as it must be (only because a proof file names"*)
                refused=$((refused + 1)) by_name=$((by_name + 1)) ;;
            "rt: must-fail "*": refused, as it must be"*) refused=$((refused + 1)) ;;
            "rt: must-fail "*": NOT REFUSED: "*) proved=$((proved + 1)) ;;
            "rt: "*": BAD EDIT: "*) bad=$((bad + 1)) ;;
        esac
    done < "$1"
}

# The crates with an audit that have a file which differs from the commit's, or is new.
changed_since() {
    local crate
    { git diff --name-only "$1" -- crates; git ls-files --others --exclude-standard crates; } | cut -d / -f 2 | sort -u |
        while read -r crate; do if [ -d "crates/$crate/audit" ]; then echo "$crate"; fi; done
}

crates=("$@")
if [ "${1-}" = --changed ]; then
    git rev-parse --verify "$2^{commit}" > /dev/null
    mapfile -t crates < <(changed_since "$2")
    if [ ${#crates[@]} -eq 0 ]; then
        echo "audit: no crate with an audit has changed since $2"
        exit 0
    fi
elif [ $# -eq 0 ]; then
    for folder in crates/*/audit; do crates+=("$(basename "${folder%/audit}")"); done
fi
edits=0 refused=0 by_name=0 proved=0 bad=0 stopped=0
for crate in "${crates[@]}"; do
    if [ ! -d "crates/$crate/audit" ] || [ -e "$copies/$crate" ]; then
        echo "audit: there is no folder crates/$crate/audit, or it was named twice" >&2
        exit 2
    fi
    prepare "$crate"
done
for crate in "${crates[@]}"; do
    while (($(jobs -rp | wc -l) >= lanes)); do wait -n || true; done
    try_edits "$crate" | tee -a "$copies/said" &
done
wait
count "$copies/said"

# Not tried is what rt says so of, and what it says nothing of.
untried=$((edits - refused - proved - bad - stopped))
echo "audit of ${crates[*]}: $edits edits, $refused refused ($by_name of them for a missing name alone)," \
    "$proved not refused, $bad bad, $stopped stopped at a limit (which shows nothing), $untried not tried"
[ "$edits" -gt 0 ] && [ "$refused" -eq "$edits" ]
