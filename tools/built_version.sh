#!/usr/bin/env bash
# Fails where the built occur is of another version than the file VERSION names, so that no package has a wrong name.
set -euo pipefail
cd "$(dirname "${BASH_SOURCE[0]}")/.."
said=$(build/occur --version 2> /dev/null || true)
if [[ $said == 'occur '* && $said != "occur $(< VERSION) "* ]]; then
    echo "VERSION is $(< VERSION), and build/occur says '$said'. Nothing was packed." >&2
    exit 1
fi
