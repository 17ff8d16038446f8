#!/usr/bin/env bash
# Sees that the library needs one function from outside, tests the Rust crate, builds the example in C and in Rust, runs both
# on stack E, without marks and with one, and on a row of cells, and compares what they print.
set -euo pipefail
source "$(dirname "${BASH_SOURCE[0]}")/library.sh"

# A caller without a C library brings memset alone.
needs=$(nm -u "$STACK_FOLDS_LIB/libstack_folds.a" | awk '$1 == "U" { print $2 }' | sort -u)
if [ "$needs" != memset ]; then
    # shellcheck disable=SC2086
    echo "the library needs from outside:" $needs >&2
    exit 1
fi

mkdir -p target/example
gcc -std=c11 -O2 -Wall -Wextra -Werror -o target/example/fold_file \
    interface/example/fold_file.c "$STACK_FOLDS_LIB/libstack_folds.a"
cargo test --offline --quiet --manifest-path "$manifest" -p stack_folds
cargo build --offline --quiet --release --manifest-path "$manifest" -p stack_folds --examples

# What the program $1 prints for the words behind it, refusals too.
said() {
    "$@" 2>&1 || true
}

# Compares what both print for these words.
both() {
    echo "== $*"
    said target/example/fold_file "$@" | tee target/example/c.out
    said "$CARGO_TARGET_DIR/release/examples/fold_file" "$@" > target/example/rust.out
    cmp target/example/c.out target/example/rust.out
}

for words in "apart height 2" "nested height 3" "nested width 6" "apart width 5" "apart area" "nested area" \
    "apart table" "nested table" "nested height 0" "apart width 2"; do
    # shellcheck disable=SC2086
    both interface/example/e.stk $words
done
# The same stack in version 2, with a fold barred after its second component.
for words in "apart height 2" "nested height 3" "apart table" "nested table" "nested area" "apart height 1"; do
    # shellcheck disable=SC2086
    both interface/example/e_barred.stk $words
done
# A row of six cells, and one of none.
for words in "height 5" "height 4" "height 3" "height 0" "count 2" "count 240000000"; do
    # shellcheck disable=SC2086
    both cells $words 3 1 2 2 4 1
done
both cells height 5
echo "C and Rust print the same"
