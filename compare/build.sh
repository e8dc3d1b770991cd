# The building steps that compare/run, compare/sample, compare/mutants and bench/run share. Sourced, with `me` the name of the folder that asks (compare).
# In the environment:
#   XTYPES       the crate's folder src/xtypes; ../shared/docs/src/src/xtypes from the repository's root if it is not set
# They need rustc, and for the port the Rattle toolchain, which runs on x86-64, and cc. Nothing is fetched. What is built is in target/compare, or target/bench.
me=${me:-compare}
beside=$(cd "$(dirname "${BASH_SOURCE[0]}")" && pwd -P)
root=$(dirname "$beside")
xtypes=${XTYPES:-$root/../shared/docs/src/src/xtypes}
[ -f "$xtypes/deserializer.rs" ] || { echo "$me: no deserializer.rs in $xtypes; set XTYPES ($me/run --help)" >&2 && exit 2; }
out=$root/target/$me
m=$(uname -m)
[ "$m" != x86_64 ] || . "$root/tools/kit.sh"
mkdir -p "$out"

# The crate's files as they are, but for the closing validation call, which document 01 leaves out, and two stand-ins beside them.
crate_text() { # DIR
    mkdir -p "$1"
    cp "$beside"/stand-ins/*.rs "$xtypes"/{data_storage,dynamic_type,error}.rs "$1/"
    sed '/^    if !dynamic_data.validate_dynamic_data() {$/,/^    }$/d' "$xtypes/deserializer.rs" >"$1/deserializer.rs"
    edit=$(diff "$xtypes/deserializer.rs" "$1/deserializer.rs" | grep '^[<>]' || :)
    if [ "$edit" != '<     if !dynamic_data.validate_dynamic_data() {
<         return Err(XTypesError::InvalidData);
<     }' ]; then
        echo "$me: the closing validation call is not where it was in $xtypes/deserializer.rs" >&2
        exit 2
    fi
}

# The archive of the C interface, as target/compare/lib/libsinotayam.a (or target/bench/lib): rt proves it first.
archive() { # LOG
    "$root/tools/archive" x86-64 --out "$out/lib" >"$1" 2>&1 || { tail -n 20 "$1"; exit 1; }
}

# The same functions as DIR/port.o, from code that nothing proves: of a program that calls them, the module is kept when rt tries it. The copy of the crates is no
# part of the repository: rt ci refuses it there.
object() { # DIR
    rm -rf "$1"
    mkdir -p "$1"
    repo=$(mktemp -d)
    tar -C "$root" -c --exclude=out crates crates.txt | tar -C "$repo" -x
    mkdir -p "$repo/crates/feed/src"
    echo 'feed: sinotayam' >>"$repo/crates.txt"
    cat >"$repo/crates/feed/src/main.rt" <<'END'
fn main(rt: HostRuntime) {
    let mut table = [0u64; 4];
    let mut index = [0u32; 4];
    let mut position = 0u64;
    let mut need = 0u64;
    let _ = sinotayam::c::sinotayam_fault(b"");
    let _ = sinotayam::c::sinotayam_prepare(b"", &mut index);
    let _ = sinotayam::c::sinotayam_read(b"", 0, b"", 0, &mut table, &mut position, &mut need);
    let _ = sinotayam::c::sinotayam_read_prepared(b"", &index, 0, b"", 0, &mut table, &mut position, &mut need);
}
END
    unproved_module "$repo/crates/feed" "$1/port.bc"
    rm -rf "$repo"
    module_text "$1/port.bc" "$1/m.ll"
    # the four functions under their C names, which their parameters fit already, and the program's own main under another
    sed -e '/^define internal .*@"sinotayam::c::sinotayam_/s/^define internal/define/' -e 's/@"sinotayam::c::\(sinotayam_[a-z_]*\)"/@\1/g' -e 's/@main(/@rattle_main(/' "$1/m.ll" >"$1/n.ll"
    module_object "$1/n.ll" "$1/port.o"
}

# The comparison's program around the crate's text.
texts() { # DIR
    rm -rf "$1"
    crate_text "$1/xtypes"
    cp -r "$beside"/src/. "$1/"
}

# An overflow in the crate's arithmetic is a panic, and shows as a difference.
compile() { # DIR PROGRAM WORDS
    rustc --edition 2021 -C overflow-checks=on -A warnings "$1/main.rs" -o "$2" "${@:3}"
}

# The port's program, and in `port` the words that run it.
build_port() { # --unproved, or nothing
    [ "$m" = x86_64 ] || { echo "$me: the toolchain runs on x86-64, and this machine is $m" >&2 && exit 2; }
    if [ "${1:-}" = --unproved ]; then
        object "$out/unproved"
        link "$out/unproved/port.o"
    else
        archive "$out/rt.log"
        link "$out/lib/libsinotayam.a"
    fi
}

link() { # ARCHIVE
    cc -O2 -fno-builtin "$beside/port.c" "$1" -o "$out/port"
    port=("$out/port")
}
