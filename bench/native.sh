# Read by run and sheet at the repository's root: the code that is timed. It proves nothing: what `rt` makes of the crates is timed as it is,
# and `rt` makes code of proved crates alone, for x86-64.
for c in rt rustc; do
    command -v $c >/dev/null 2>&1 || { echo "$0: $c is not on the PATH" >&2; exit 2; }
done
[ "$(uname -m)" = x86_64 ] || { echo "$0: rt writes x86-64 code, and an emulator's time says nothing" >&2; exit 2; }
root=$PWD
work=$root/target/bench
tools=$(dirname "$(rt doc)")/toolchain/bin
rust="rustc --edition 2024 -C opt-level=3 -C codegen-units=1 -C panic=abort"
mkdir -p "$work"
copies=$(mktemp -d)
trap 'rm -rf "$copies"' EXIT

# top_of NAME DIR: the repository, or with a DIR a copy of it in which the crates in DIR stand in for those of the same name. It lies outside,
# since `rt ci` wants no file of Rattle but in crates/; what checks here kept serves it too, so that only the changed crates are proved again
top_of() {
    if [ -z "$2" ]; then
        echo "$root"
        return
    fi
    mkdir -p "$copies/$1"
    tar cf - --exclude='crates/*/out' crates.txt crates linkbox tools docs LICENSE tests/linkbox | (cd "$copies/$1" && tar xf -)
    for crate in "$2"/*/; do
        name=$(basename "$crate")
        [ -d "$root/crates/$name" ] || { echo "$0: $2 has $name, which is no crate" >&2; exit 2; }
        rm -rf "$copies/$1/crates/$name"
        cp -r "$crate" "$copies/$1/crates/$name"
        rm -rf "$copies/$1/crates/$name/out"
    done
    echo "$copies/$1"
}

# quietly NAME WORDS..: a command; what it says is shown only where it fails
quietly() {
    name=$1
    shift
    "$@" >"$work/$name.log" 2>&1 || { tail -n 20 "$work/$name.log" >&2; exit 1; }
}

# linkbox_object NAME DIR: NAME.o, the archive that ships, with its functions for C as NAME_CALL, so that several can be linked into one program
linkbox_object() {
    top=$(top_of "$1" "$2")
    quietly "$1" "$top/linkbox/build"
    rm -rf "$work/$1"
    mkdir "$work/$1"
    (cd "$work/$1" && "$tools/llvm-ar" x "$top/target/dist/lib/liblinkbox.a")
    sed -n "s/.*pub fn linkbox_\\([a-z_]*\\)(.*/linkbox_\\1 $1_\\1/p" "$top/linkbox/ffi.rs" >"$work/$1.names"
    ln -sf "$tools/clang" "$work/llvm-objcopy" # it is all of LLVM's tools, by the name that it is called by
    "$work/llvm-objcopy" --redefine-syms="$work/$1.names" "$work/$1"/*.o "$work/$1.o"
}

# sheet_program NAME DIR: sheet.NAME, the program sheet as `rt` makes it
sheet_program() {
    top=$(top_of "$1" "$2")
    (cd "$top/crates/sheet" && quietly "sheet.$1" rt run <stdin)
    cp "$top/crates/sheet/out/sheet" "$work/sheet.$1"
}
