#!/usr/bin/env bash
# Times both folds and the table next to document 001's own method, the smallest area and measuring, some three minutes;
# prints the tables of docs/PERFORMANCE.md, and a line to standard error as each row is done.
#
#   interface/bench.sh [--renew] [--keep FILE]
#   interface/bench.sh --measure
#   interface/bench.sh --marks
#   interface/bench.sh --cells
#
# The picture goes to target/performance.svg; with --renew it goes to docs/performance.svg instead. With --keep the run's
# figures go to FILE. With --measure measuring alone is timed, which takes a second. With --marks stacks with barred folds
# are timed beside the same stacks without marks, some five minutes. With --cells rows of standard cells are timed, under a
# minute. Figures that were kept as interface/bench/before.txt are shown beside those of the run: keep them, on the machine
# where both runs are made, before the library changes.
set -euo pipefail
picture=target/performance.svg
keep=()
alone=()
if [ "$*" = --measure ] || [ "$*" = --marks ] || [ "$*" = --cells ]; then
    alone=("$1")
    shift
fi
while [ $# -gt 0 ]; do
    case "$1" in
        --renew) picture=docs/performance.svg; shift ;;
        --keep)
            : "${2:?--keep needs a file}"
            mkdir -p "$(dirname "$2")" # the run would be lost if this failed behind it
            keep=(--keep "$(realpath -m "$2")")
            shift 2
            ;;
        *) echo "usage: interface/bench.sh [--renew] [--keep FILE] | --measure | --marks | --cells" >&2; exit 2 ;;
    esac
done
source "$(dirname "${BASH_SOURCE[0]}")/library.sh"
before=()
if [ -e interface/bench/before.txt ]; then
    before=(--before interface/bench/before.txt)
fi
exec cargo run --offline --quiet --release --manifest-path "$manifest" -p bench -- \
    --picture "$picture" "${before[@]}" "${keep[@]}" "${alone[@]}"
