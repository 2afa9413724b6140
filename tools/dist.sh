#!/usr/bin/env bash
# Packs archives into build/, and writes the checksums of all that is packed there to build/SHA256SUMS:
#
#     gaxtrel-VERSION-x86_64-linux.tar.gz        the programs, what is installed with them, and the clients of editors
#     gaxtrel-VERSION-x86_64-linux-debug.tar.gz  their symbols, where a debugger looks for them beside the programs
#     libgaxtrel-VERSION-x86_64-linux.tar.gz     the library, where it is built, for any folder
#     gaxtrel-VERSION.tar.gz                     the files that git knows or, without git, all that nothing has made
#
# All files get the time SOURCE_DATE_EPOCH. The same programs and sources make the same archives: no Emacs compiles its
# client.
set -euo pipefail
cd "$(dirname "${BASH_SOURCE[0]}")/.."
version=$(< VERSION)
tools/built_version.sh
name=gaxtrel-$version-x86_64-linux nvim=share/nvim/site/pack/dist/start/live-occur
folder=$(mktemp -d)
trap 'rm -rf "$folder"' EXIT

# An archive of files and folders, with the words for tar that say which: pack NAME WORD..
pack() {
    tar --create --sort=name --owner=0 --group=0 --numeric-owner --mode=u=rwX,go=rX --mtime="@$SOURCE_DATE_EPOCH" \
        "${@:2}" | gzip -9n > "build/$1.tar.gz"
    echo "build/$1.tar.gz"
}

sources() {
    if [[ -e .git ]] && command -v git > /dev/null; then
        git ls-files -z
    else
        find . -type d \( -path ./.git -o -path ./build -o -name out -o -name __pycache__ \) -prune -o \
            ! -type d ! -path ./editors/nvim/doc/tags -printf '%P\0'
    fi
}

make -s install DESTDIR= PREFIX="$folder/$name" GREP_NAME=grep SITE_LISP="$folder/$name/share/emacs/site-lisp" \
    NVIM_SITE="$folder/$name/$nvim" EMACS=
tools/help_tags.sh "$folder/$name/$nvim/doc/live-occur.txt" > "$folder/$name/$nvim/doc/tags"
sed "s/VERSION/$version/" dist/README > "$folder/$name/README"
pack "$name" -C "$folder" "$name"
pack "$name-debug" --transform="s|^\.|$name/bin/.debug|" -C build/debug .
if [[ -e build/lib/libgaxtrel.so.0 ]]; then
    make -s install-lib DESTDIR= PREFIX="$folder/lib$name" LIBDIR="$folder/lib$name/lib"
    sed -i 's|^prefix=.*|prefix=${pcfiledir}/../..|' "$folder/lib$name/lib/pkgconfig/gaxtrel.pc"
    install -m 644 LICENSE-* "$folder/lib$name"
    pack "lib$name" -C "$folder" "lib$name"
fi
sources | LC_ALL=C sort --zero-terminated > "$folder/sources"
pack "gaxtrel-$version" --transform="s|^|gaxtrel-$version/|S" --null --verbatim-files-from \
    --files-from="$folder/sources"
tools/checksums.sh
