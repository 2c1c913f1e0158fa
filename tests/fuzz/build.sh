# Sourced by run and wrong, from the root of the checkout.

library=target/staticlib/libseqochanu.a
flags=(-std=c99 -Wall -Wextra -Werror -O2 -I include)

# make_ready SECONDS: builds our static library, unless SECONDS is no number or there is no clang.
make_ready() {
    if ! [[ $1 =~ ^[1-9][0-9]*$ ]]; then
        echo "${0##*/}: $1 is no whole number of seconds, 1 or more" >&2
        exit 2
    fi
    if ! command -v clang >/dev/null; then
        echo "${0##*/}: there is no clang, whose libFuzzer is needed" >&2
        exit 2
    fi
    tools/build seqochanu >/dev/null
}

# write_starts ROOM FOLDER: writes the inputs to start from into FOLDER, by a program that it builds in ROOM.
write_starts() {
    cc "${flags[@]}" -o "$1/starts" tests/fuzz/starts.c tests/fuzz/judge.c "$library"
    "$1/starts" "$2"
}

# compile_fuzzer ROOM: compiles the fuzzer's own parts into ROOM.
compile_fuzzer() {
    for part in reread judge mutate; do
        clang "${flags[@]}" -g -fsanitize=fuzzer -c -o "$1/$part.o" "tests/fuzz/$part.c"
    done
}

# link_fuzzer ROOM [ARGUMENT ...]: links these parts over the library into ROOM/reread; the linker gets each ARGUMENT.
link_fuzzer() {
    clang -g -fsanitize=fuzzer -o "$1/reread" "$1/reread.o" "$1/judge.o" "$1/mutate.o" "${@:2}" "$library"
}

# fuzz ROOM SECONDS FOLDER ...: becomes the fuzzer, which starts from the inputs in each FOLDER, keeps what is new in
# the first, and what it finds wrong in ROOM.
fuzz() {
    exec "$1/reread" -max_total_time="$2" -max_len=6000 -timeout=10 -verbosity=0 -artifact_prefix="$1/" "${@:3}"
}
