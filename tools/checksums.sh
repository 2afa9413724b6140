#!/usr/bin/env bash
# Writes build/SHA256SUMS: the checksums of all packages of this version in build/.
set -euo pipefail
cd "$(dirname "${BASH_SOURCE[0]}")/../build"
sha256sum *gaxtrel*[-_]"$(< ../VERSION)"* > SHA256SUMS
