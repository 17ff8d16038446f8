# shellcheck shell=bash
# Sourced by the scripts beside it, under their `set -e`. Goes to the repository's root and proves and builds the library
# there, unless it was built from the same sources before: the crate stack_folds_c, as target/staticlib/libstack_folds.a.
# Where STACK_FOLDS_LIB names a folder with a libstack_folds.a, that one is used instead.
cd "$(dirname "${BASH_SOURCE[0]}")/.." || exit
export CARGO_TARGET_DIR=$PWD/target/cargo
export manifest=interface/Cargo.toml

# One line for all that the library is made from: the kit and the sources, with their names.
sources() {
    { rt version; sha256sum crates.txt; find crates/*/src crates/*/specs crates/*/proofs -type f -print0 | sort -z | xargs -0 sha256sum; } | sha256sum
}

if [ -z "${STACK_FOLDS_LIB:-}" ]; then
    export STACK_FOLDS_LIB=$PWD/target/staticlib
    built_from=$STACK_FOLDS_LIB/stack_folds.sources
    if [ ! -e "$STACK_FOLDS_LIB/libstack_folds.a" ] || [ "$(sources)" != "$(cat "$built_from" 2>&1)" ]; then
        rm -f "$built_from"
        (cd crates/stack_folds_c && rt lib) >&2
        mkdir -p "$STACK_FOLDS_LIB"
        cp crates/stack_folds_c/out/libstack_folds_c.a "$STACK_FOLDS_LIB/libstack_folds.a"
        sources > "$built_from"
    fi
fi
