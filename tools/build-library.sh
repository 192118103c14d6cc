#!/bin/sh
# Proves the library and writes it as an archive for this machine, target/staticlib/libdesk.a: sh tools/build-library.sh [proved]
#
# `rt lib` proves the crate desk and all below it, from what earlier checks kept. The exports are the crate desk_c, a static library: it is proved over these and compiled by `rattle build`,
# as `rt lib` there would have it, but on x86-64 with every jump within 32 bytes of code (docs/DECISIONS.md, 66): to the kit's compiler one word more is said. What no proof covers is the
# compiler in any case (docs/ASSUMPTIONS.md).
#
# `proved` says that an rt ci that passed has just left the libraries below desk_c in out/ (../desk knows): they are then not proved once more.
set -u
export LC_ALL=C
unset CDPATH
cd "$(dirname "$0")/.." || exit 2

complain() { printf 'build-library: %s\n' "$*" >&2; }

. tools/linked-kit.sh
[ -n "$target" ] || {
    complain "the library can be compiled for x86-64 and for aarch64, and this is $(uname -m)"
    exit 2
}

top=$PWD
archive=target/staticlib/libdesk.a
room=$(mktemp -d) || exit 2
trap 'rm -rf "$room"' EXIT
trap 'exit 130' HUP INT TERM
link_toolchain "$room/toolchain" <<TEXT || exit 2
#!/bin/sh
exec '$toolchain/bin/clang' "\$@" $jumps
TEXT

# What `rt lib` calls in crates/desk_c, but for the toolchain; and nothing is taken from earlier checks of desk_c.
compile() {
    set -- --crate-name desk_c src/lib.rt --extern "std=$kit/rlibs/std.rlib" -L "dependency=$kit/rlibs"
    for library in $(libraries_of desk_c crates.txt); do
        if [ -d "crates/$library" ]; then built=$top/crates/$library/out/rlib; else built=$kit/rlibs; fi
        set -- "$@" --extern "$library=$built/$library.rlib"
    done
    for folder in crates/*/out/rlib; do
        set -- "$@" -L "dependency=$top/$folder"
    done
    (cd crates/desk_c && "$kit/bin/rattle" build "$@" --antt-project "$kit/rattle/logic/antt-project.json" --logic-built "$kit/logic_built" --links desk_c= \
        --crate-type staticlib --target "$target" --toolchain "$room/toolchain" -o "$room/libdesk.a")
}

# nothing is left if the rest fails
rm -f "$archive"
if [ "${1:-}" != proved ] || ! compile; then
    (cd crates/desk && rt lib) || exit
    compile || exit
fi
mkdir -p target/staticlib && cp "$room/libdesk.a" "$archive" || exit 2
echo "build-library: $archive is for $(uname -m)"
