#!/usr/bin/env bash
# Fails where a file is there that is not this grep, and says what to do:
#
#     tools/keep_other_grep.sh install|uninstall FILE
#
# This grep meets a wrong option with a usage line of its own. No grep has to be built to know it.
set -euo pipefail
target=$1 file=$2
usage='usage: grep [-E|-F] [-cilnoqsvx] [-A NUM] [-B NUM] [-C NUM] [-e LIST]... [-f FILE]... [LIST] [FILE...]'
usage_of() { { timeout 5 "$1" -Y < /dev/null 2>&1 > /dev/null || true; } | tail -n 1; }

if [[ ! -e $file && ! -L $file ]]; then exit 0; fi
if [[ -f $file && -x $file && $(usage_of "$file") == "$usage" ]]; then exit 0; fi
echo "$file is there, and is not this grep. It stays as it is, and nothing was changed." >&2
if [[ $target == uninstall ]]; then
    cat >&2 << END
If this grep has another name, name it:          make uninstall GREP_NAME=gaxgrep
To remove the rest of what was installed:        make uninstall-occur, with the same words
END
else
    cat >&2 << END
Choose another place, as in:                     make install PREFIX=\$HOME/.local
Or another name, as in:                          make install GREP_NAME=gaxgrep
To leave grep out:                               make install-occur
To replace it all the same:                      make install FORCE=1, with the same PREFIX and GREP_NAME
END
fi
exit 1
