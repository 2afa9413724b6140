#!/usr/bin/env bash
# Runs build/grep with each of its allocations refused in turn: a run that can't go on without it has to end with
# status 2, the message and whole first lines of the output; any other run has to do what it does without refusal.
# At first programs that are wrong on purpose are run so: each has to be found. It needs a C compiler.
set -euo pipefail
cd "$(dirname "${BASH_SOURCE[0]}")/.."
program=$PWD/build/grep
wrong=$PWD/tools/wrong_grep.c
folder=$(mktemp -d)
trap 'rm -rf "$folder"' EXIT
"${CC:-cc}" -shared -fPIC -O1 -o "$folder/refuse.so" tools/refuse_allocation.c -ldl
cd "$folder"
printf 'b\nab\nB\n' > short
printf 'a+\n[[:alpha:]]{2,3}b\n' > patterns
printf '%s\n' aab xyz ab b wordword Aab q1 q2 q3 > strings
printf '%s\n' 'a[a-c]b' 'x*yz' 'ab$' 'bc.' 'word[a-z]*' 'Aab*' 'q1.' 'q2.' 'q3.' > expressions
printf '%s\n' a b c d e f a > letters
{ printf 'aab\n'; head -c 200000 /dev/zero | tr '\0' a; printf '\naab\n'; } > long
{ head -c 2000 /dev/zero | tr '\0' a; printf '\nb\n'; } > parts

# The status that the words have without a refusal, and the words. It exits where a run does what it may not.
runs=0
try() {
    local wanted=$1 at=0 status
    shift
    "$program" "$@" > wanted-out 2> wanted-messages < short && status=0 || status=$?
    if [ "$status" != "$wanted" ]; then
        echo "without a refusal: status $status, with the words: $*"
        exit 1
    fi
    while :; do
        at=$((at + 1))
        rm -f mark
        REFUSE_AT=$at REFUSE_MARK=mark LD_PRELOAD=./refuse.so "$program" "$@" > out 2> messages < short \
            && status=0 || status=$?
        [ -e mark ] || return 0
        runs=$((runs + 1))
        if [ "$status" = "$wanted" ] && cmp -s out wanted-out && cmp -s messages wanted-messages; then
            continue
        fi
        head -c "$(stat -c %s out)" wanted-out > front
        if [ "$status" != 2 ] || [ "$(tail -n 1 messages)" != 'grep: out of memory' ] || ! cmp -s out front \
            || { [ -s out ] && [ -n "$(tail -c 1 out)" ]; }; then
            echo "allocation $at refused: status $status, with the words: $*"
            exit 1
        fi
    done
}

# Makes a program that is wrong in the way of this number, and answers whether it goes through.
passes() {
    "${CC:-cc}" "-DWRONG=$1" -o wrong_grep "$wrong"
    (program=./wrong_grep && try 0 -F b) > said 2>&1
}

if ! passes 0; then
    cat said
    exit 1
fi
for number in 1 2 3 4 5 6 7; do
    if passes "$number"; then
        echo "tools/wrong_grep.c is wrong as $number says, and was not found"
        exit 1
    fi
done
echo "7 programs that are wrong on purpose were found, and one that is right goes through"

try 0 -F b
try 0 -n -e b -e 'a*b' short - long
try 0 -E -i -o -f patterns short long
try 0 -F -n -f strings short long
try 0 -F -i -o -f strings short
try 0 -o -E 'a|a*[bc]' parts
try 0 -f expressions short long
try 0 -E -n 'aaaaa|wordword' short long
try 0 -c -v -x -E '(a{2,3}|b)*' long short
try 0 -f - short
try 0 -l b - short long
try 0 -c b short long
try 2 -e '\(' short
# lines around selected ones
try 0 -n -B 2 a letters
try 0 -n -A 1 -B 3 -e f -e b letters long
try 0 -C 100 -v -x 'a*' long letters short
# automata of 65, of 640 and of thousands of positions
try 1 -c -E '[a-c]{64}b' long
try 1 -n -i -E '([a-c]{4}|[b-d]{6}){64}x' long short
# the second pattern needs an automaton of its own
try 0 -c -E -e '(a|b){255}{8}' -e '[ab]{20}c' long
try 0 -o -x -E '((.{0,15}a){16}){15}|b' short
try 2 -E '((.{0,15}a){16}){17}' short
# patterns that share an automaton
try 0 -E -o -n -e 'a|b' -e 'a+b' parts
# many strings, one of them long
try 0 -F -c -e "$(head -c 5000 /dev/zero | tr '\0' a)" -f strings long
echo "$runs runs with an allocation refused: each ended as it has to"
