#!/usr/bin/env bash
# Writes docs/EVIDENCE.md: the newest run of each target, of those in build/evidence.tsv and on the page as it is, and
# the sizes of the crates; and draws the figures, one of which is of these.
set -euo pipefail
cd "$(dirname "${BASH_SOURCE[0]}")/.."
page=docs/EVIDENCE.md
targets='gate audit test-program test-random test-growth test-changes test-changes-client'
targets+=' test-memory-grep test-memory-occur test-memory-crates test-editor test-nvim'
targets+=' test-lib test-lib-cases test-lib-fuzz test-lib-random test-sqlite test-postgres test-dask'

# The rows of the page, and then those of the runs, in their order: the last of a target is its newest.
rows() {
    sed -n 's/^| \([a-z].*\) |$/\1/p' "$page" | grep -v '^target | ' | sed 's/ | /\t/g' || true
    if [[ -e build/evidence.tsv ]]; then cat build/evidence.tsv; fi
}

newest=$(rows | awk -F '\t' -v targets="$targets" '
    { sub(/ .*/, "", $3); row[$1] = "| " $1 " | " $2 " | " $3 " | " $4 " | " $5 " | " $6 " |" }
    END { for (count = split(targets, name, " "); at++ < count;) if (name[at] in row) print row[name[at]] }')
{
    cat << 'END'
# Evidence

The newest run of each test target, written by `make evidence`: a `+` after the commit means that files differed from it.

| target | commit | kit | count | result | seconds |
|---|---|---|---|---|---|
END
    if [[ $newest ]]; then printf '%s\n' "$newest"; fi
    printf '\n## Sizes\n\nIn bytes, as `make size` counts them.\n\n![The size of each crate](figures/sizes.svg)\n\n'
    tools/count.py --size
} > "$page.new"
mv "$page.new" "$page"
tools/figures.py
