#!/usr/bin/env bash
# Proves and builds programs, or the library for C, with the crates that they stand on and no others:
#
#     tools/build.sh PROGRAM|gaxtrel..
#
# A crate begins as soon as those that it stands on are proved; the first program's crates are first. Crates that are
# ready at once share the cores: RT_JOBS, or else all, but four at most. A program is put into build/, and is tried at
# once. What the toolchain says is in build/log/CRATE, and in build/make.log as each crate ends.
# It needs bash 5.1.
set -euo pipefail
cd "$(dirname "${BASH_SOURCE[0]}")/.."

cores=${RT_JOBS:-$(nproc | awk '{ print $1 < 4 ? $1 : 4 }')}
free=$cores
here='' # the crate that is proved in this checkout now
order=() # the crates that are wanted, each after those that it stands on
proved=() # the libraries that are proved
declare -A libraries=() # of each crate: what it stands on
declare -A state=() # of each crate that is wanted: waits, runs or proved
declare -A crate_of=() share_of=() # of each job, by its process: its crate, and its cores
declare -A words=([grep]=b) # of a program: its words for the run on its stored input

report() { printf '[%2d.%d min] %s\n' $((SECONDS / 60)) $((SECONDS % 60 / 6)) "$1"; }
fail() { report "$1" >&2; exit 1; }
is_program() { [[ -e crates/$1/src/main.rt ]]; }

read_crates() {
    local name below
    while IFS=: read -r name below; do libraries[${name%% *}]=${below//,/ }; done < <(sed 's/#.*//; /^ *$/d' crates.txt)
}

want() {
    local library
    [[ ! -v state[$1] ]] || return 0
    state[$1]=waits
    for library in ${libraries[$1]}; do # those of the toolchain have no line in crates.txt
        if [[ -v libraries[$library] ]]; then want "$library"; fi
    done
    order+=("$1")
}

is_ready() {
    local library
    for library in ${libraries[$1]}; do [[ ${state[$library]-proved} == proved ]] || return 1; done
    [[ ${state[$1]} == waits ]]
}

start() {
    local crate=$1 share=$2 rt=(rt lib --jobs "$2") input=/dev/null place=(env -C "crates/$1")
    if is_program "$crate"; then # rt builds a program in order to run it
        rt=(rt run --jobs "$share" -- ${words[$crate]-}) input=crates/$crate/stdin
    fi
    if [[ $here ]]; then place=(tools/in_copy.sh "$crate" "${proved[*]}"); else here=$crate; fi
    report "$crate begins, with $share of $cores cores"
    "${place[@]}" "${rt[@]}" < "$input" > "build/log/$crate" 2>&1 &
    crate_of[$!]=$crate share_of[$!]=$share state[$crate]=runs free=$((free - share))
}

start_ready() {
    local it ready=() count
    for it in "${order[@]}"; do if is_ready "$it"; then ready+=("$it"); fi; done
    for ((count = ${#ready[@]}; count > 0 && free > 0; count--)); do
        start "${ready[-count]}" $(((free + count - 1) / count))
    done
}

try_grep() { printf 'b\nab\nB\n' | build/grep b | diff - <(printf 'b\nab\n'); }
try_occur() {
    printf 'file f 1\nab\npatterns 1\na\nshow\n' | build/occur | diff - <(printf 'ok\nok\no ab\nstatus 0\n')
}

# Waits until a crate ends, and reports it.
finish_one() {
    local job crate what it left=() status=0
    wait -n -p job || status=$?
    crate=${crate_of[$job]} what="$crate is proved" free=$((free + share_of[$job]))
    unset "crate_of[$job]"
    sed "s|^|$crate: |" "build/log/$crate" >> build/make.log
    if ((status)); then
        tail -n 20 "build/log/$crate" >&2
        fail "$crate is not proved, or not built. Above is the end of what rt said of it; all is in build/make.log"
    fi
    state[$crate]=proved
    [[ $here != "$crate" ]] || here=''
    if is_program "$crate"; then
        install -m 755 "crates/$crate/out/$crate" "build/$crate"
        "try_$crate" || fail "build/$crate gives a wrong answer"
        what+="; build/$crate is there, and its first answer is right"
    elif [[ -e crates/$crate/out/rlib ]]; then # the library for C has none
        proved+=("$crate")
    fi
    for it in "${order[@]}"; do [[ ${state[$it]} == proved ]] || left+=("$it"); done
    report "$what; ${#left[@]} of ${#order[@]} crates left${left:+: ${left[*]}}"
}

# Ends what still runs. What rt has kept so far serves the next time.
stop() {
    trap '' INT TERM HUP
    kill "${!crate_of[@]}" 2> /dev/null || true
    wait
}

command -v rt > /dev/null ||
    fail '`rt` is not on the path. It is the command of the Rattle toolchain: README, under Install, says more of it.'
mkdir -p build/log
exec {lock}> build/lock
flock -n "$lock" || { report 'waiting for another build here to end'; flock "$lock"; }
trap stop EXIT
trap 'exit 130' INT TERM HUP
: > build/make.log
for copy in build/copies/*/; do # of a build that was killed
    [[ ! -d $copy ]] || tools/in_copy.sh "$(basename "$copy")" '' true
done
read_crates
for program in "$@"; do
    [[ -v libraries[$program] ]] || fail "crates.txt has no crate $program"
    want "$program"
done
while start_ready && ((${#crate_of[@]})); do finish_one; done
