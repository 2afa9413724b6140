#!/usr/bin/env bash
# Installs the library into a folder, and there compiles and runs a program by what pkg-config says, in C and in C++, and
# with the archive alone. The archive calls what docs/LIBRARY.md names. Then all is removed again.
set -euo pipefail
cd "$(dirname "${BASH_SOURCE[0]}")/.."
folder=$(mktemp -d)
trap 'rm -rf "$folder"' EXIT
stage=$folder/stage
make=(make -s --no-print-directory DESTDIR="$stage" PREFIX=/opt/there)

cat > "$folder/user.c" << 'END'
#include <gaxtrel.h>
int main(void) {
    gaxtrel_matcher m = GAXTREL_NONE;
    gaxtrel_fault fault;
    gaxtrel_part part;
    if (gaxtrel_compile(&m, (const uint8_t *)"ab|abcd", 7, GAXTREL_EXTENDED, false, false, &fault)) return 1;
    if (gaxtrel_find(&m, (const uint8_t *)"xabcde", 6, 0, &part) != GAXTREL_YES) return 2;
    gaxtrel_free(&m);
    return !(part.start == 1 && part.end == 5);
}
END

"${make[@]}" install
export PKG_CONFIG_SYSROOT_DIR=$stage PKG_CONFIG_PATH=$stage/opt/there/lib/pkgconfig
[[ $(pkg-config --modversion gaxtrel) == $(< ../VERSION) ]]
read -ra compile <<< "$(pkg-config --cflags gaxtrel)"
read -ra link <<< "$(pkg-config --libs gaxtrel)"
"${CC:-cc}" "${compile[@]}" "$folder/user.c" "${link[@]}" -o "$folder/in_c"
"${CXX:-c++}" "${compile[@]}" -x c++ "$folder/user.c" "${link[@]}" -o "$folder/in_cxx"
"${CC:-cc}" "${compile[@]}" "$folder/user.c" "$stage/opt/there/lib/libgaxtrel.a" -o "$folder/alone"
for program in in_c in_cxx alone; do LD_LIBRARY_PATH=$stage/opt/there/lib "$folder/$program"; done
called=$(nm --undefined-only "$stage/opt/there/lib/libgaxtrel.a" | awk 'NF == 2 { print "`" $2 "`" }' | sort -u | xargs)
named=$(grep -o 'calls .* alone' ../docs/LIBRARY.md | grep -o '`[a-z]*`' | sort -u | xargs)
[[ $called == "$named" ]] || { echo "it calls $called, and docs/LIBRARY.md names $named" >&2; exit 1; }
"${make[@]}" uninstall
left=$(find "$stage" ! -type d)
[[ ! $left ]] || { echo "uninstall leaves $left" >&2; exit 1; }
echo 'installed, used by pkg-config, and removed'
