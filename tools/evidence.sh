#!/usr/bin/env bash
# Runs the command of a test target, and adds a line on the run to build/evidence.tsv:
#
#     tools/evidence.sh TARGET COMMAND..
#
# The columns are the target, the commit (with + where files differ from it), the kit, the count of the run, its result
# and its seconds. The count is the last `N passed, M failed` of the output, that of Emacs, or else the last line. All
# output of the command goes to standard output, and to build/log/TARGET; the exit status is that of the command.
set -uo pipefail
cd "$(dirname "${BASH_SOURCE[0]}")/.."
target=$1
shift

commit=$(git rev-parse --short HEAD 2> /dev/null || echo unknown)
if [[ $(git status --porcelain -- . ':!docs/EVIDENCE.md' 2> /dev/null) ]]; then commit+=+; fi
kit=$(rt version 2> /dev/null || echo unknown)
log=build/log/$target
mkdir -p build/log

"$@" 2>&1 | tee "$log"
status=${PIPESTATUS[0]}

count_of() {
    local emacs='Ran [0-9]+ tests, [0-9]+ results as expected(, [0-9]+ unexpected)?(, [0-9]+ skipped)?'
    grep -aoE "[0-9]+ passed, [0-9]+ failed|$emacs" "$log" | tail -n 1
}

count=$(count_of)
if [[ ! $count ]]; then count=$(grep -a '[^[:space:]]' "$log" | tail -n 1 | tr -d '\r\t|'); fi
result=passed
if ((status)); then result="failed with status $status"; fi
printf '%s\t%s\t%s\t%s\t%s\t%s\n' "$target" "$commit" "$kit" "$count" "$result" "$SECONDS" >> build/evidence.tsv
exit "$status"
