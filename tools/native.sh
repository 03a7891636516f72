#!/bin/sh
# Makes the proved library for C programs, of the crate host, and prints the file to link:
#   tools/native.sh            the file for this machine: on x86-64 the archive, elsewhere the object
#   tools/native.sh archive    the archive for x86-64, build/host_x86_64.a
#   tools/native.sh MACHINE    an object for that machine (x86_64 or aarch64), build/host_MACHINE.o
# The kit compiles the crate for either machine as 'rt lib' does, for every processor of the machine. Its compiler is called by a script
# that then does the same again for text: the module, build/host_MACHINE.ll, and the code, build/host_MACHINE.s, which
# tools/footprint.py and tests/edge/run read. Nothing is made again while the crates and the kit are unchanged.
set -eu
cd "$(dirname "$0")/.."
. tools/kit.sh
here=$(uname -m)
wanted=${1:-$here}
[ $# -gt 0 ] || [ "$here" != x86_64 ] || wanted=archive
machine=$wanted
[ "$wanted" != archive ] || machine=x86_64
case $machine in
x86_64) processor=x86-64 ;;
aarch64) processor=generic ;;
*) echo "native.sh: '$machine' is neither x86_64 nor aarch64" >&2 && exit 2 ;;
esac
made=build/host_$machine
mkdir -p build

# Makes a toolchain of links to the kit's, whose compiler leaves the module and the code as text too. It lies outside of the checkout,
# where 'rt ci' wants no links.
toolchain_of_links() { # FOLDER
    mkdir -p "$1/bin"
    ln -s "$tools/lib" "$1/lib"
    for each in "$tools"/bin/*; do
        [ "${each##*/}" = clang ] || ln -s "$each" "$1/bin/"
    done
    cat >"$1/bin/clang" <<END
#!/bin/sh
"$tools/bin/clang" "\$@" || exit
[ -f module.bc ] || exit 0
for word; do
    [ "\$word" != -c ] || word=-S
    set -- "\$@" "\$word"
    shift
done
"$tools/bin/clang" "\$@" -o "$PWD/$made.s" || exit
exec "$tools/bin/clang" "\$@" -emit-llvm -Xclang -disable-llvm-passes -o "$PWD/$made.ll"
END
    chmod +x "$1/bin/clang"
}

# Proves the library and makes the archive, the object and the texts, if they were not made of the same crates before.
make_all() {
    [ "$(cat "$made.stamp" 2>/dev/null)" = "$(sources)" ] && return 0
    rm -f "$made".*
    room=$(mktemp -d)
    trap 'rm -rf "$room"' EXIT
    toolchain_of_links "$room"
    build host lib.rt "$room" "$made.a" --crate-type staticlib --target "$machine-unknown-linux-gnu" --cpu "$processor" \
        >build/host.log 2>&1 || { cat build/host.log >&2; exit 1; }
    [ -f "$made.s" ] && [ -f "$made.ll" ] || { echo "native.sh: the kit's compiler left no text" >&2; exit 1; }
    "$tools/bin/llvm-ar" p "$made.a" host.o >"$made.o"
    sources >"$made.stamp"
}

make_all
if [ "$wanted" = archive ]; then echo "$made.a"; else echo "$made.o"; fi
