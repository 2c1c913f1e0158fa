# Sourced by the scripts that compile a driver over the Rust as it stands (tests/differential/run, bench/run), from the
# root of the checkout.

# find_rust [--rust DIR] ...: $rust is the folder that has the Rust's src/; without --rust, the papers' copy beside the
# checkout.
find_rust() {
    rust=../shared/docs/src
    if [ "${1:-}" = --rust ]; then
        rust=$2
    fi
    if [ ! -f "$rust/src/dsp.rs" ]; then
        echo "run: no src/dsp.rs in $rust: name the folder of the Rust by --rust DIR" >&2
        exit 2
    fi
}

# lay_rust ROOM: puts the Rust's files into ROOM, and what drivers over them share. The Rust's files keep their text;
# one module line behind it reaches what is private there. Our library's own wrapper has a folder for itself, since a
# file of a driver may have the name of one of its files.
lay_rust() {
    mkdir -p "$1/compose" "$1/wrapper"
    cp -r tests/differential/src/reach tests/differential/src/synth.rs "$1"
    for file in bindings/rust/*.rs; do
        case $file in
        *_tests.rs) ;;
        *) cp "$file" "$1/wrapper" ;;
        esac
    done
    for file in dsp compose compose/form style; do
        cat "$rust/src/$file.rs" >"$1/$file.rs"
    done
    for file in dsp compose; do
        printf '#[path = "reach/%s.rs"] pub(crate) mod reach;\n' "$file" >>"$1/$file.rs"
    done
    printf '#[path = "../reach/form.rs"] pub(crate) mod reach;\n' >>"$1/compose/form.rs"
}
