#!/bin/sh
# Puts what c/build.sh made into PREFIX, and the program with its man page and completions where it was built.
set -eu
[ $# -eq 1 ] || { echo "usage: install.sh PREFIX" >&2; exit 2; }
mkdir -p "$1"
prefix=$(cd "$1" && pwd)
cd "$(dirname "$0")/.."
[ -e c/out/libfiruvaik.a ] || { echo "install.sh: there is no library yet: run c/build.sh" >&2; exit 1; }
install -D -m 644 c/firuvaik.h "$prefix/include/firuvaik.h"
install -D -m 644 c/out/libfiruvaik.a "$prefix/lib/libfiruvaik.a"
install -D -m 755 c/out/libfiruvaik.so "$prefix/lib/libfiruvaik.so"
install -D -m 644 c/out/firuvaik.pc "$prefix/lib/pkgconfig/firuvaik.pc"
if [ -x crates/firuvaik/out/firuvaik ]; then
  install -D crates/firuvaik/out/firuvaik "$prefix/bin/firuvaik"
  install -D -m 644 docs/firuvaik.1 "$prefix/share/man/man1/firuvaik.1"
  install -D -m 644 completions/firuvaik.bash "$prefix/share/bash-completion/completions/firuvaik"
fi
