#!/bin/sh
# Makes libfiruvaik.a, libfiruvaik.so and firuvaik.pc in c/out: proves the crate firuvaik_c where that isn't done yet, and puts its
# archive and the kit's memory calls into one file. Nothing but the names firuvaik_* is seen from outside.
set -eu
cd "$(dirname "$0")/.."
kit=$(dirname "$(rt doc)")
(cd crates/firuvaik_c && rt lib)
rm -rf c/out
mkdir -p c/out/objects
cp c/firuvaik.h c/out/
ld -r --whole-archive crates/firuvaik_c/out/libfiruvaik_c.a "$kit/c/liblibc_c.a" -o c/out/objects/firuvaik.o
objcopy --wildcard --keep-global-symbol='firuvaik_*' c/out/objects/firuvaik.o
ar rcs c/out/libfiruvaik.a c/out/objects/firuvaik.o
cc -shared -Wl,-soname,libfiruvaik.so -o c/out/libfiruvaik.so c/out/objects/firuvaik.o
rm -r c/out/objects
version=$(sed -n 's/^#define FIRUVAIK_VERSION "\(.*\)"$/\1/p' c/firuvaik.h)
sed "s|@version@|$version|" c/firuvaik.pc.in > c/out/firuvaik.pc
