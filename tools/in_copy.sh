#!/usr/bin/env bash
# Runs a command of rt in a crate's folder within a copy of the sources:
#
#     tools/in_copy.sh CRATE 'LIBRARY..' COMMAND..
#
# rt locks a crate's folder and those of all crates below it, so that in one checkout no two crates that share a library
# are proved at once. In a copy the second one is. The copy has the libraries that are named, which are proved, and what
# was kept of the crate. What was made is brought back however this ends.
set -euo pipefail
cd "$(dirname "${BASH_SOURCE[0]}")/.."
crate=$1 libraries=$2 copy=$PWD/build/copies/$1 kept=crates/$1/out rt=
shift 2

# The copy goes, since rt ci refuses sources in build/.
bring_back() {
    if [[ -d $copy/$kept ]]; then
        rm -rf "$kept"
        mv "$copy/$kept" "$kept"
    fi
    rm -rf "$copy"
}

stop() {
    trap '' INT TERM HUP
    if [[ $rt ]]; then kill "$rt" 2> /dev/null || true; fi
    wait
    bring_back
}

exec 9< "crates/$crate"
flock 9 # as rt does, which until the end waits with this crate here
trap stop EXIT
trap 'exit 130' INT TERM HUP
bring_back # of a copy that was killed
mkdir -p "$copy"
cp -R --parents crates.txt crates/*/src crates/*/specs crates/*/proofs "$copy"
for library in $libraries; do
    cp -al --parents "crates/$library/out/rlib" "$copy" # by links: rt replaces these files, and changes none
done
if [[ -d $kept ]]; then mv "$kept" "$copy/$kept"; fi
(cd "$copy/crates/$crate" && exec "$@") <&0 &
rt=$!
wait "$rt"
