#!/bin/sh
# Makes the library for x86-64 Linux from the proved archive: target/lib/librukeshomaji.a and target/lib/librukeshomaji.so.2, by its major
# version, with librukeshomaji.so as a link to it. It needs the kit's command `rt`, which proves the core first where it has changed, and a C
# compiler.
#
#     examples/build.sh
set -eu
[ "$(uname -m)" = x86_64 ] || { echo "build.sh: this needs an x86-64 machine, for which the core is compiled; this one is $(uname -m)" >&2; exit 2; }
command -v rt >/dev/null || { echo "build.sh: the Rattle kit's command rt is not in PATH" >&2; exit 2; }
cd "$(dirname "$0")/.."
mkdir -p target/lib
echo 'build.sh: proving and building the core, which takes minutes where it has changed' >&2
(cd crates/linked && rt lib) >target/lib/proved.log 2>&1 || { cat target/lib/proved.log >&2; exit 1; }
cp crates/linked/out/liblinked.a target/lib/librukeshomaji.a
cc -shared -Wl,-soname,librukeshomaji.so.2 -o target/lib/librukeshomaji.so.2 \
    -Wl,--whole-archive target/lib/librukeshomaji.a -Wl,--no-whole-archive
ln -sf librukeshomaji.so.2 target/lib/librukeshomaji.so
echo 'target/lib/librukeshomaji.a target/lib/librukeshomaji.so'
