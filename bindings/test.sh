#!/usr/bin/env bash
# Builds the library and tests it from C, Rust and Python: by hand from all three, and by the recorded answers of
# crates/vectors/data from Rust and Python. Fails where one of them does.
set -euo pipefail
cd "$(dirname "$0")/.."

library=target/staticlib/libexports.a
manifest=bindings/rust/Cargo.toml
streams=crates/replay_streams/data

bindings/library.sh
cc -shared -o target/staticlib/libergo_voting.so -Wl,--whole-archive $library -Wl,--no-whole-archive

python3 -B bindings/declarations.py

for program in test example; do
    cc -std=c11 -Wall -Wextra -pedantic -Werror -Ibindings/c -o target/c_$program bindings/c/$program.c $library
done
target/c_test
echo '#include "ergo_voting.h"' | c++ -fsyntax-only -Wall -Wextra -pedantic -Werror -Ibindings/c -x c++ -

cargo fmt --check --manifest-path $manifest
cargo test --quiet --offline --manifest-path $manifest
cargo build --quiet --offline --manifest-path $manifest --example parameter

python3 -B -m unittest discover --start-directory bindings/python

# What an example prints, what it says on standard error, and its exit status.
told() {
    local status=0
    "$@" 2> target/said || status=$?
    cat target/said
    echo "exit $status"
}

# The three examples say the same of a stream, and it ends as is expected.
agree() {
    local stream=$streams/$1.records in_c in_rust in_python
    in_c=$(told target/c_example "$stream")
    in_rust=$(told cargo run --quiet --offline --manifest-path $manifest --example parameter "$stream")
    in_python=$(told python3 -B bindings/python/example.py "$stream")
    if [ "$in_c" != "$in_rust" ] || [ "$in_c" != "$in_python" ] || [[ "$in_c" != *"$2" ]]; then
        printf 'the examples on %s\nC\n%s\nRust\n%s\nPython\n%s\n' "$1" "$in_c" "$in_rust" "$in_python"
        exit 1
    fi
    echo "the examples on $1: same"
}

# The chart of a stream, of a file or of standard input, ends as is expected.
chart() {
    local stream=$streams/$1.records of_file of_input
    of_file=$(told python3 -B bindings/python/support.py "$stream" "${@:3}")
    of_input=$(told python3 -B bindings/python/support.py - "${@:3}" < "$stream")
    if [ "$of_file" != "$of_input" ] || [[ "$of_file" != *"$2" ]]; then
        printf 'the chart of %s\n%s\n' "$1" "$(tail -n 4 <<< "$of_file")"
        exit 1
    fi
    echo "the chart of $1: as expected"
}

agree empty $'exit 0'
agree approved $'71680 2500000\nexit 0'
agree r15_entry_differs $'refused by 15, id 8\nexit 1'
agree r15_several_differ $'refused by 15, id 3\nexit 1'
agree r25_cut_in_votes $'refused by 25\nexit 1'
agree r26_height_again $'refused by 26\nexit 1'

chart empty $'height,held,120\nexit 0'
chart approved $'72703,4096,1004,0\nexit 0' 4096 120 -1
chart r09_last_header $'4095,7,0\n4095: refused by 9\nexit 0' 7
chart r25_cut_in_votes $'3071,1024,700\nrefused by 25\nexit 1'
