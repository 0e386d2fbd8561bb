# What the scripts of the comparisons and of the benchmark share. A script sources it and then reads its own words by `words`.
# It sets root (the repository), here (the script's folder) and work (where the script writes: below target, as the script stands below the repository).
set -euo pipefail
# With either of these the Rust records a backtrace in each of its errors, and most searches make some.
unset RUST_BACKTRACE RUST_LIB_BACKTRACE

root=$(cd "$(dirname "${BASH_SOURCE[0]}")/.." && pwd -P)
here=$(cd "$(dirname "$0")" && pwd -P)
script=${here#"$root"/}/$(basename "$0")
work=$root/target/${here#"$root"/}
mkdir -p "$work"

fail() { echo "$script: $*" >&2; exit 2; }
# logged FILE COMMAND..: what the command prints goes to the file, and its end to standard error where the command fails.
logged() { "${@:2}" >"$1" 2>&1 || { tail -n 40 "$1" >&2; fail "this failed: ${*:2}"; }; }

# ---- the words of the command

# words OPTIONS MOST WORD..: reads a script's words. Every script takes --help and --rust FOLDER; OPTIONS names those that it takes beside them.
# Those that were given stand in `options` then. One that has a colon behind it in OPTIONS takes a value, and both stand in `pairs`.
# All other words are numbers, at most MOST, and stand in `numbers`.
words() {
    local may=" $1 " most=$2
    shift 2
    options=() pairs=() numbers=()
    while [ $# -gt 0 ]; do
        case $1 in
            --help) sed -n '2,/^[^#]/s/^# \{0,1\}//p' "$root/$script"; exit 0 ;;
            --rust) [ $# -gt 1 ] || fail "--rust FOLDER"; export RUST_FOLDER=$2; shift ;;
            --*)
                if [[ $may = *" $1 "* ]]; then options+=("$1")
                elif [[ $may = *" $1: "* && $# -gt 1 ]]; then pairs+=("$1" "$2"); shift
                else fail "not understood: $1 (try --help)"; fi ;;
            '' | *[!0-9]*) fail "not a number: '$1' (try --help)" ;;
            *) numbers+=("$1") ;;
        esac
        shift
    done
    [ ${#numbers[@]} -le "$most" ] || fail "too many numbers (try --help)"
    mode=release
    ! given --debug || mode=debug
}
# given OPTION: whether it stands in `options`.
given() { [[ " ${options[*]} " = *" $1 "* ]]; }

# ---- the Rust

# Where the Rust is: --rust FOLDER, or else the environment variable RUST_FOLDER.
find_rust() {
    local file=core/geop-core-geometry/src/contains/curve.rs
    [ -n "${RUST_FOLDER:-}" ] || fail "the folder with the Rust is missing: the sources of geop, repository geop-cad/geop at commit 90094469a3,
with core/geop-core-math/src and core/geop-core-geometry/src below it. Give it by --rust FOLDER, or in the environment variable RUST_FOLDER."
    [ -f "$RUST_FOLDER/$file" ] || fail "$RUST_FOLDER is not the folder with the Rust: it has no $file"
}
# compile WORD..: rustc, with the words of the environment variable RUSTFLAGS behind.
compile() { rustc --edition 2024 "$@" ${RUSTFLAGS:-} || fail "rustc failed"; }
# compile_rust FROM TO WORD..: the Rust's two libraries, of the files in FROM/math and FROM/geometry.
compile_rust() {
    local from=$1 to=$2 words=(--cap-lints allow --crate-type rlib -L "$2" --out-dir "$2" "${@:3}")
    mkdir -p "$to"
    compile "${words[@]}" --crate-name serde "$root/oracle/rust/serde.rs"
    compile "${words[@]}" --crate-name geop_core_math --extern "serde=$to/libserde.rlib" "$from/math/lib.rs"
    compile "${words[@]}" --crate-name geop_core_geometry --extern "geop_core_math=$to/libgeop_core_math.rlib" "$from/geometry/lib.rs"
}
# The Rust's libraries by oracle/build, in release or with --debug. The folder `rust` has them then, and `second` those with revision 2's arithmetic.
build_rust() {
    find_rust
    rust=$root/target/oracle/rust/$mode
    second=$rust-second
    logged "$work/build.log" "$root/oracle/build" $(! given --debug || echo --debug)
}

# ---- the port

port=()
# copy_crates NAME: a copy of the crates, for a comparison to add what it calls, in the folder `copy`. What was proved in it before, and is as it was, is not
# proved again: what rt keeps of that, in the crates' folders out, stays. It lies outside the repository, where rt ci refuses any source that no crate has.
copy_crates() {
    local part to
    copy=${TMPDIR:-/tmp}/puhlwazo-oracle-$UID/$1
    mkdir -p "$copy/crates"
    find "$copy/crates" -mindepth 2 -maxdepth 2 ! -name out -exec rm -rf {} +
    for part in "$root"/crates/*/*; do
        to=$copy/${part#"$root"/}
        [ "${part##*/}" = out ] || { mkdir -p "${to%/*}"; cp -R "$part" "$to"; }
    done
    cp "$root/crates.txt" "$copy"
}
# add_crate NAME DEPENDENCIES SOURCE FILE [library]: one more crate in the copy; SOURCE is its file src/FILE. With lib.rt it is for callers in C, or with
# 'library' for other crates.
add_crate() {
    local kind=
    [ "$4" != lib.rt ] || [ "${5:-}" = library ] || kind=' staticlib'
    echo "$1$kind: $2" >>"$copy/crates.txt"
    mkdir -p "$copy/crates/$1/src"
    cp "$3" "$copy/crates/$1/src/$4"
}
# build_port FOLDER CRATE: the C library of a crate, which is proved for this. `port` has the words to link it then.
build_port() {
    logged "$work/staticlib.log" env -C "$1/crates/$2" rt lib
    port=(-L "native=$1/crates/$2/out" -l "static=$2")
}

# compile_port CRATE BELOW..: the C library of a crate of the copy, compiled and not proved. (The toolchain proves whatever it compiles to a library. This is
# the same code without its promises, as the slips have it, compiled as Rust: there, too, a slice that is lent is a pointer and a length.) `port` has the
# words to link it then.
compile_port() {
    python3 "$root/oracle/slips/strip.py" "$copy/crates" "$work/port.rs" --library "${@:2}" "$1" || fail "the port could not be written as Rust"
    compile --crate-type cdylib --crate-name "$1" -A warnings -C opt-level=3 -C overflow-checks=on -C panic=abort -o "$work/lib$1.so" "$work/port.rs"
    port=(-L "native=$work" -l "dylib=$1" -C "link-arg=-Wl,-rpath,$work")
}

# ---- both

# link SOURCE PROGRAM WORD..: a program over the Rust's libraries, those of revision 2, which it calls second_math and second_geometry, and the port's,
# if there is one.
link() {
    compile -C opt-level=3 "${@:3}" -L "$rust" --extern "geop_core_math=$rust/libgeop_core_math.rlib" \
        --extern "geop_core_geometry=$rust/libgeop_core_geometry.rlib" -L "$second" --extern "second_math=$second/libgeop_core_math.rlib" \
        --extern "second_geometry=$second/libgeop_core_geometry.rlib" "${port[@]}" -o "$2" "$1"
}
# compare WORD..: runs compare.rs of the script's folder.
compare() {
    link "$here/compare.rs" "$work/compare-$mode"
    echo "$(rustc --version), the Rust in $mode; $(rt version)"
    "$work/compare-$mode" "$@"
}
