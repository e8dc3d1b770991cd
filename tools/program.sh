# The programs of this repository, for the tools that run one. Sourced after tools/kit.sh, with `root` the repository's folder and `me` the tool's name.

# Whether FILE is there and no older than the code.
is_fresh() { # FILE
    [ -x "$1" ] && [ -z "$(find "$root/crates" "$root/crates.txt" -name out -prune -o -newer "$1" \( -name '*.rt' -o -name '*.antt' -o -name crates.txt \) -print -quit)" ]
}

# The program as target/unproved/bin/NAME, from code that nothing proves: of the module that rt tries, with its checks.
build_unproved() { # NAME
    local work=$root/target/unproved/$1
    mkdir -p "$work" "$root/target/unproved/bin"
    unproved_module "$root/crates/$1" "$work/$1.bc"
    module_object "$work/$1.bc" "$work/$1.o"
    "$kit/bin/rattle-link" --target $x86 --toolchain "$tools" -o "$root/target/unproved/bin/$1" "$work/$1.o" "$kit"/c/lib*_c.a >"$work/link.log" 2>&1 || { cat "$work/link.log" >&2 && exit 1; }
}

# In `run`, the words that run the program, which is made first where it is missing or older than the code.
program() { # NAME --unproved, or NAME
    if [ "${2:-}" = --unproved ]; then
        made=$root/target/unproved/bin/$1
        if ! is_fresh "$made"; then
            echo "$me: compiling the program '$1' as it stands, without any proof (half a minute)" >&2
            build_unproved "$1"
        fi
    else
        # rt leaves a program that is still good as it is, however old: so a mark of its own says when it was last asked for.
        made=$root/crates/$1/out/$1
        mark=$root/target/tools/$1
        if ! { [ -x "$made" ] && is_fresh "$mark"; }; then
            echo "$me: proving the program '$1' and the $(crates_below "$1") crates that it stands on, each named when it is done; some ten minutes where nothing is proved yet ($me --unproved takes half a minute, and proves nothing)" >&2
            # rt makes a program and runs it, here on an input of nothing
            (cd "$root/crates/$1" && rt run </dev/null >/dev/null) || exit 1
            mkdir -p "${mark%/*}"
            : >"$mark"
            chmod +x "$mark"
        fi
    fi
    run=("$made")
}
