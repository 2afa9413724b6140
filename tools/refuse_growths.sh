#!/usr/bin/env bash
# Runs tests in which requests for memory between two marks are refused. In one of crates/re_tests none is made:
# folding and stepping take no memory. In the others each request is refused in turn, one a run, until none is left to
# refuse: in crates/re_tests of a matcher that is made, which is out of memory or answers as ever, of its searches,
# which go on without the cache, and of those for the parts of a line, for which there is room or none; in
# crates/line_tests of splices of lines in chunks, after which all lines are as they were; in crates/command_tests of
# lines, which are handed out whole by the next call, of words and of whole searches, which report it, with the output up
# to there, and of the edits of sessions: one that is refused for that leaves the session as it was, and made again
# answers as its row says.
# Edits that need no memory, reports, messages and the status make no request.
# At first programs are run in the place of tests that are wrong on purpose: each has to be found. It wants a C compiler.
set -euo pipefail
cd "$(dirname "${BASH_SOURCE[0]}")/.."
folder=$(mktemp -d)
trap 'rm -rf "$folder"' EXIT
"${CC:-cc}" -shared -fPIC -O1 -o "$folder/refuse.so" tools/refuse_marked_request.c -ldl

# Runs a command, and counts the requests that were refused, and the marks after which none was.
count() {
    : > "$folder/log"
    REFUSE_LOG=$folder/log LD_PRELOAD=$folder/refuse.so "$@" > "$folder/said" 2>&1 || return 1
    refused=$(tr -cd r < "$folder/log" | wc -c)
    granted=$(($(tr -cd c < "$folder/log" | wc -c) - refused))
}

# Whether a command ends well, and between its marks makes no request; or makes some, and ends after marks between
# which none was left to refuse.
asks_for_none() { count "$@" && [ "$refused" -eq 0 ] && [ "$granted" -gt 0 ]; }
goes_on() { count "$@" && [ "$refused" -gt 0 ] && [ "$granted" -gt 0 ]; }

# What has to be said of the stand-in of a kind.
expect() {
    local wanted=$1 judge=$2 kind=$3 found=wrong
    "${CC:-cc}" "-DKIND=$kind" -o "$folder/marked" tools/marked_program.c
    if "$judge" "$folder/marked"; then found=right; fi
    if [ "$found" != "$wanted" ]; then
        echo "tools/marked_program.c of kind $kind: $judge says it is $found"
        exit 1
    fi
}

# one that asks for nothing, sets no mark, stops at the first refusal, fails, and goes through
expect right asks_for_none 0
for kind in 1 2 3 4; do expect wrong asks_for_none "$kind"; done
for kind in 0 1 2 3; do expect wrong goes_on "$kind"; done
expect right goes_on 4
echo "8 tests that are wrong on purpose were found, and two that are right go through"

# Judges a test, given by its crate and its full name; what it makes. The first of a crate has its tests proved.
proved=
try() {
    local judge=$1 crate=$2 test=$3
    if [ "$proved" != "$crate" ]; then (cd "crates/$crate" && rt test); fi
    proved=$crate
    if ! "$judge" "crates/$crate/out/${crate}_tests" "$test"; then
        cat "$folder/said"
        echo "$crate, $test: ${refused:-no} requests refused, and ${granted:-no} marks without one"
        exit 1
    fi
    if [ "$judge" = asks_for_none ]; then
        echo "$4: no request is made"
    else
        echo "$4: $refused runs with a request refused, $granted with none left to refuse: each as it has to be"
    fi
}

try asks_for_none re_tests automata::stepping_takes_no_memory "folding and stepping"
try goes_on re_tests cache::matchers_without_memory "a matcher that is made"
try goes_on re_tests cache::searches_without_memory "searches of a matcher"
try goes_on re_tests line_parts::parts_without_memory "parts of a line"
try goes_on line_tests memory::splices_without_memory "splices of lines in chunks"
try goes_on command_tests long_lines::lines_without_memory "lines"
try goes_on command_tests memory::words_without_memory "words"
try goes_on command_tests memory::searches_without_memory "searches of sources"
try goes_on command_tests memory::lines_done_without_memory "lines done before memory is refused"
try goes_on command_tests sessions::memory::edits_without_memory "edits of sessions"
try goes_on command_tests sessions::watched::files_without_memory "files of watched sessions"
