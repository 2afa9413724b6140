#!/usr/bin/env bash
# Installs the Emacs client into FOLDER: live-occur.el and live-occur-track.el, and what EMACS makes of them: an .elc of
# each, and live-occur-autoloads.el. Without an Emacs of release 28 or later the former are there alone.
#
#     editors/emacs/install.sh EMACS FOLDER
set -euo pipefail
emacs=$1
folder=$2
files=("$(dirname "${BASH_SOURCE[0]}")"/live-occur{,-track}.el)

install -d "$folder"
rm -f "$folder"/live-occur{,-track}.elc "$folder/live-occur-autoloads.el"
install -m 644 "${files[@]}" "$folder/"
test -n "$emacs" || exit 0

work=$(mktemp -d)
trap 'rm -rf "$work"' EXIT
export HOME=$work
if ! "$emacs" -Q --batch --eval '(kill-emacs (if (< emacs-major-version 28) 1 0))' > /dev/null 2>&1; then
    echo "$emacs isn't there, or is older than Emacs 28: the client is installed, and is not compiled"
    exit 0
fi
mkdir "$work/live-occur"
cp "${files[@]}" "$work/live-occur/"
"$emacs" -Q --batch --eval '(require (quote package))' \
    --eval "(package-generate-autoloads \"live-occur\" \"$work/live-occur\")" \
    -L "$work/live-occur" -f batch-byte-compile "$work"/live-occur/live-occur{,-track}.el > "$work/said" 2>&1 ||
    { cat "$work/said"; exit 1; }
install -m 644 "$work"/live-occur/*.elc "$work/live-occur/live-occur-autoloads.el" "$folder/"
