#!/usr/bin/env bash
# Makes of build/PROGRAM build/stripped/PROGRAM, which has no symbols, and build/debug/PROGRAM.debug, which has them,
# and whose name the first one tells a debugger. Without objcopy, or the one that OBJCOPY names, the program keeps them:
#
#     tools/strip.sh PROGRAM
set -euo pipefail
cd "$(dirname "${BASH_SOURCE[0]}")/.."
program=$1
objcopy=${OBJCOPY-objcopy}
stripped=build/stripped/$program debug=build/debug/$program.debug

mkdir -p build/stripped build/debug
if ! command -v "$objcopy" > /dev/null; then
    echo "no $objcopy: $program keeps its symbols" >&2
    rm -f "$debug"
    cp "build/$program" "$stripped"
    exit
fi
# By a name of this run first, since others may run beside it.
"$objcopy" --only-keep-debug "build/$program" "$debug.$$"
chmod 644 "$debug.$$"
mv "$debug.$$" "$debug"
"$objcopy" --strip-all --remove-section=.comment --add-gnu-debuglink="$debug" "build/$program" "$stripped.$$"
mv "$stripped.$$" "$stripped"
