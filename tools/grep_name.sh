#!/usr/bin/env bash
# Fails where grep can't be installed by this name, and says why:
#
#     tools/grep_name.sh NAME
#
# The name becomes part of files' names, and of the texts of completions and manual pages.
set -euo pipefail
if [[ $1 == occur ]]; then
    echo "GREP_NAME can't be occur, which is the name of the other program" >&2
    exit 1
elif [[ ! $1 =~ ^[A-Za-z0-9][A-Za-z0-9._-]*$ ]]; then
    echo "GREP_NAME is '$1': it has to be a letter or digit, and then letters, digits, dots, hyphens and underscores" >&2
    exit 1
fi
