# What building and running programs over the proved crates takes of the kit; to be sourced, at the top of the checkout.
kit=$(dirname "$(dirname "$(readlink -f "$(command -v rt)")")")
tools=$kit/toolchain

# Runs an x86-64 program under the kit's loader and C library.
run_x86_64() {
    "$tools/lib/ld-linux-x86-64.so.2" --library-path "$tools/lib" "$@"
}

# Makes an x86-64 program of a C file and the C host's library: the file, the program.
link_x86_64() {
    "$tools/bin/clang" --target=x86_64-unknown-linux-gnu -O2 -fPIC -ffreestanding -isystem "$(cc -print-file-name=include)" -Iinclude \
        -c "$1" -o "$2.o"
    "$kit/bin/rattle-link" --target x86_64-unknown-linux-gnu --toolchain "$tools" -o "$2" "$2.o" build/host_x86_64.a >build/link.log 2>&1 ||
        { cat build/link.log >&2; return 1; }
}

# What everything that is made of the crates is made from, the kit and the crates of the folder at hand, in one number.
sources() {
    { cat "$kit/KIT-ID" && find crates.txt crates \( -name out -o -name must-fail \) -prune -o -type f -exec sha256sum {} + | sort; } | sha256sum
}

# The crates that a crate names in crates.txt.
uses() { # NAME
    sed -n "s/^$1\( staticlib\)\{0,1\}://p" crates.txt
}

# The crates below a crate, each once.
below() { # NAME
    awk -F: -v todo="$1" '
        { split($1, of, " "); uses[of[1]] = $2 }
        END {
            while (split(todo, each, " ")) {
                todo = ""
                for (i in each) if (!(each[i] in met)) { met[each[i]]; todo = todo " " uses[each[i]] }
            }
            for (it in met) print it
        }' crates.txt | grep -vx "$1"
}

# Whether each library below a crate stands in its out/ as it was proved of the code that it has now.
proved_below() { # NAME
    for each in $(below "$1"); do
        diff -r "crates/$each/src" "crates/$each/out/rlib/$each.rlib/lang/src" >/dev/null 2>&1 || return 1
    done
}

# Proves a crate and compiles it with a toolchain, to a file. The libraries below are those that 'rt ci' or 'rt check' made: where one is
# missing or of other code, rt makes them all first. It is rt's own call of the compiler, but for the file and the toolchain.
build() { # NAME ROOT TOOLCHAIN FILE WORDS...
    name=$1 root=$2 toolchain=$3 file=$4
    shift 4
    proved_below "$name" || (cd "crates/$name" && rt check --only "") || return 1
    for each in $(uses "$name"); do
        set -- "$@" --extern "$each=crates/$each/out/rlib/$each.rlib"
    done
    for each in $(below "$name"); do
        set -- "$@" -L "dependency=crates/$each/out/rlib"
    done
    "$kit/bin/rattle" build --crate-name "$name" "crates/$name/src/$root" --extern "std=$kit/rlibs/std.rlib" -L "dependency=$kit/rlibs" \
        --antt-project "$kit/rattle/logic/antt-project.json" --logic-built "$kit/logic_built" --links "$name=" --jobs 2 \
        --incremental "build/kept_$name" --toolchain "$toolchain" --backend llvm -o "$file" "$@"
}
