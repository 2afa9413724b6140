#!/usr/bin/env bash
# Packs for Debian into build/, and writes the checksums of all packages to build/SHA256SUMS:
#
#     gaxtrel_VERSION_amd64.deb    the programs, and what is installed with them: grep is called gaxgrep there, and so is
#                                  installed beside that of the system
#     libgaxtrel0_.., libgaxtrel-dev_.., python3-gaxtrel_..    the library, where it is built: shared, for C, for Python
#
# All files get the time SOURCE_DATE_EPOCH. It needs dpkg-dev, and for Python its headers.
set -euo pipefail
cd "$(dirname "${BASH_SOURCE[0]}")/.."
version=$(< VERSION) libraries=usr/lib/x86_64-linux-gnu
tools/built_version.sh
folder=$(mktemp -d)
trap 'rm -rf "$folder"' EXIT
mkdir "$folder/debian"
echo 'Source: gaxtrel' > "$folder/debian/control" # for dpkg-shlibdeps

# Puts the programs and the clients below a folder.
put_gaxtrel() {
    local nvim=/usr/share/nvim/site/pack/dist/start/live-occur
    make -s install DESTDIR="$1" PREFIX=/usr GREP_NAME=gaxgrep SITE_LISP=/usr/share/emacs/site-lisp NVIM_SITE="$nvim" \
        EMACS=
    tools/help_tags.sh "$1$nvim/doc/live-occur.txt" > "$1$nvim/doc/tags"
    # zsh of Debian looks there.
    mv "$1/usr/share/zsh/site-functions" "$1/usr/share/zsh/vendor-completions"
    rm "$1"/usr/share/doc/gaxtrel/LICENSE-*
    install -D -m 644 dist/debian/lintian-overrides "$1/usr/share/lintian/overrides/gaxtrel"
}

put_libgaxtrel-dev() {
    make -s install-lib DESTDIR="$1" PREFIX=/usr LIBDIR="/$libraries"
    rm "$1/$libraries/libgaxtrel.so.0"
    strip --strip-debug --remove-section=.comment --enable-deterministic-archives "$1/$libraries/libgaxtrel.a"
}

put_libgaxtrel0() {
    install -D -m 644 -t "$1/$libraries" build/lib/libgaxtrel.so.0
    strip --strip-unneeded --remove-section=.comment "$1/$libraries/libgaxtrel.so.0"
    echo "libgaxtrel 0 libgaxtrel0 (>= $version)" > "$1/DEBIAN/shlibs"
    printf 'libgaxtrel.so.0 libgaxtrel0 #MINVER#\n* Build-Depends-Package: libgaxtrel-dev\n' > "$1/DEBIAN/symbols"
    nm -D --defined-only "$1/$libraries/libgaxtrel.so.0" | sed "s/.* / /; s/$/@Base $version/" >> "$1/DEBIAN/symbols"
    echo 'activate-noawait ldconfig' > "$1/DEBIAN/triggers"
}

put_python3-gaxtrel() {
    local packages=$1/usr/lib/python3/dist-packages
    mkdir -p "$packages"
    PYTHONPATH=capi/python python3 -Bc "import wheel_of_archive; wheel_of_archive.build_wheel('$folder')"
    python3 -m zipfile -e "$folder"/gaxtrel-*.whl "$packages"
    rm "$packages"/gaxtrel-*.dist-info/{LICENSE-*,RECORD}
    strip --strip-unneeded --remove-section=.comment "$packages"/gaxtrel/*.so
}

# Packs a package: pack NAME
pack() {
    local name=$1 root=$folder/$1 doc=$folder/$1/usr/share/doc/$1 needed size
    mkdir -p "$root/DEBIAN"
    "put_$name" "$root"
    install -D -m 644 -t "$doc" dist/debian/copyright
    sed "s/VERSION/$version/; s/DATE/$date/" dist/debian/changelog | gzip -9n > "$doc/changelog.gz"
    find "$root/usr/share" -path '*/man/*' -type f -exec gzip -9n {} +
    needed=$(cd "$folder" && find "$name" \( -path '*/bin/*' -o -name '*.so*' \) -type f -exec dpkg-shlibdeps -O {} + \
        2> /dev/null)
    size=$(find "$root/usr" -type f -printf '%s\n' | awk '{ sum += int(($1 + 1023) / 1024) } END { print sum }')
    awk -v RS= -v name="$name" 'NR == 1 || $2 == name' dist/debian/control |
        sed "s/VERSION/$version/; s/NEEDED/${needed#*=}/; s/SIZE/$size/" > "$root/DEBIAN/control"
    (cd "$root" && find usr -type f -print0 | LC_ALL=C sort -z | xargs -0 md5sum > DEBIAN/md5sums)
    chmod -R u=rwX,go=rX "$root"
    dpkg-deb --root-owner-group --build "$root" "build/${name}_${version}_amd64.deb"
}

date=$(date --utc --rfc-email --date="@$SOURCE_DATE_EPOCH")
pack gaxtrel
if [[ -e build/lib/libgaxtrel.so.0 ]]; then
    for name in libgaxtrel0 libgaxtrel-dev python3-gaxtrel; do pack "$name"; done
fi
tools/checksums.sh
