# What the tools ask of the Rattle toolchain. Sourced, with `root` the repository's folder.
#   kit     the toolchain's folder, and `tools` that of its compiler
#   x86     the processor that rt's programs are for; rt itself runs on x86-64
command -v rt >/dev/null || { echo "${me:-tools}: there is no rt on the PATH: the Rattle toolchain is needed" >&2 && exit 2; }
kit=${RATTLE_KIT:-$(cd "$(dirname "$(readlink -f "$(command -v rt)")")/.." && pwd -P)}
tools=$kit/toolchain
x86=x86_64-unknown-linux-gnu

# A view of the kit as DIR, whose clang also keeps the module of the program that rt tries, as DIR/module.bc: the code as it stands, which nothing proved, with a
# check at each place that may go wrong. rt finds its kit by where it stands itself, so it stands there too.
kit_that_keeps_modules() { # DIR
    mkdir -p "$1/bin" "$1/toolchain/bin"
    for f in "$kit"/*; do case ${f##*/} in bin | toolchain) ;; *) ln -sfn "$f" "$1/${f##*/}" ;; esac done
    for f in "$kit"/bin/*; do case ${f##*/} in rt | *.py) cp -f "$f" "$1/bin/" ;; *) ln -sfn "$f" "$1/bin/${f##*/}" ;; esac done
    for f in "$tools"/*; do [ "${f##*/}" = bin ] || ln -sfn "$f" "$1/toolchain/${f##*/}"; done
    for f in "$tools"/bin/*; do [ "${f##*/}" = clang ] || ln -sfn "$(readlink -f "$f")" "$1/toolchain/bin/${f##*/}"; done
    cat >"$1/toolchain/bin/clang" <<END
#!/bin/sh
case " \$* " in *' -fsanitize=address '*) for a in "\$@"; do case \$a in *.bc) cp -f "\$a" "$1/module.bc" ;; esac done ;; esac
exec "$tools/bin/clang" "\$@"
END
    chmod +x "$1/toolchain/bin/clang"
}

# The module of a program's code as it stands: rt tries the program, here on an input of nothing. The view is no part of the repository: rt ci refuses links there.
unproved_module() { # FOLDER MODULE.bc
    local view
    view=$(mktemp -d)
    kit_that_keeps_modules "$view"
    rm -f "$2"
    (cd "$1" && "$view/bin/rt" try </dev/null) >"$2.log" 2>&1 && mv "$view/module.bc" "$2" || { tail -n 20 "$2.log" >&2 && rm -rf "$view" && exit 1; }
    rm -rf "$view"
}

# A module as text.
module_text() { # MODULE.bc FILE.ll
    "$tools/bin/clang" --target=$x86 -x ir "$1" -S -emit-llvm -O0 -Xclang -disable-llvm-passes -o "$2"
}

# A module, or its text, as an object.
module_object() { # MODULE OBJECT
    "$tools/bin/clang" --target=$x86 -march=x86-64 -O2 -fPIC -mllvm -trap-unreachable -mllvm -no-trap-after-noreturn -x ir -c "$1" -o "$2"
}

# How many crates of this repository a crate stands on.
crates_below() { # NAME
    awk -F'[: ]+' -v top="$1" '
        !/^#/ && NF { for (i = 2; i <= NF; i++) below[$1, ++n[$1]] = $i; ours[$1] = 1 }
        function mark(c, i) { for (i = 1; i <= n[c]; i++) if (ours[below[c, i]] && !seen[below[c, i]]++) mark(below[c, i]) }
        END { mark(top); for (c in seen) k++; print k + 0 }' "$root/crates.txt"
}
