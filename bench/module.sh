# For bench/leaves and bench/designs: the module that the toolchain's compiler is given for a static library, kept and compiled for this
# host by the same compiler, at -O3 as there: the same program, whatever the processor. Sourced at the project's root.

fail() {
    echo "$(basename "$0"): $1" >&2
    exit 1
}

out=$PWD/target/bench
mkdir -p "$out"
home=$(dirname "$(rt doc)")
clang=$home/toolchain/bin/clang

# The toolchain, with a compiler in front of its own that keeps what it is given.
keep_module() { # keep_module CRATE FOLDER: makes target/bench/CRATE.ll
    local kit=$out/kit
    link() { # link FROM TO: what TO has not yet
        local entry
        for entry in "$1"/*; do
            [ -e "$2/$(basename "$entry")" ] || ln -s "$entry" "$2/"
        done
    }
    rm -rf "$kit" "$out/$1.bc"
    mkdir -p "$kit/bin" "$kit/toolchain/bin"
    printf '#!/bin/sh\n[ ! -f module.bc ] || cp module.bc "%s"\nexec "%s" "$@"\n' "$out/$1.bc" "$clang" >"$kit/toolchain/bin/clang"
    chmod +x "$kit/toolchain/bin/clang"
    # rt takes the toolchain that it lies in, a link's that of its file.
    cp "$home/bin/rt" "$home/bin/rtlib.py" "$kit/bin/"
    link "$home" "$kit"
    link "$home/bin" "$kit/bin"
    link "$home/toolchain" "$kit/toolchain"
    link "$home/toolchain/bin" "$kit/toolchain/bin"
    (cd "$2/crates/$1" && "$kit/bin/rt" lib) >"$out/staticlib.log" 2>&1 || fail "$1 is not built; target/bench/staticlib.log says why"
    compile -S -emit-llvm "$out/$1.bc" -o "$out/$1.ll"
}

compile() { # compile WORDS..
    "$clang" -Wno-override-module -x ir "$@" 2>"$out/clang.log" || fail "the module is not compiled; target/bench/clang.log says why"
}

# Gives a private function a name, so that it can be called alone.
alias_of() { # alias_of CRATE NAME TYPE FUNCTION
    local type
    type=$(sed -n "s/^define internal \(.*\) @\"$4\"(\(.*\)) #.*/\1 (\2)/p" "$out/$1.ll" | sed 's/noundef //; s/ noundef//g; s/ %a[0-9]*//g')
    [ "$type" = "$3" ] || fail "the module has no $4 of the type $3, but ${type:-none}"
    printf '@%s = alias %s, ptr @"%s"\n' "$2" "$3" "$4" >>"$out/$1.ll"
}

compile_here() { # compile_here MODULE OBJECT
    compile --target="$(uname -m)-unknown-linux-gnu" -O3 -fPIC -c "$1" -o "$2"
}
