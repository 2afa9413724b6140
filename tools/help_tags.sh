#!/usr/bin/env bash
# Writes the tags of a help text, as Neovim's `:helptags` makes them: tools/help_tags.sh FILE
set -euo pipefail
awk -v name="${1##*/}" '{
    for (i = 1; i <= NF; i++) {
        if ($i ~ /^\*[^*|]+\*$/) print substr($i, 2, length($i) - 2) "\t" name "\t/" $i
    }
}' "$1" | LC_ALL=C sort -u
