#!/usr/bin/env bash
# Compares the library with slow implementations that share nothing with it. Argument: a seed (default 1).
set -euo pipefail
source "$(dirname "${BASH_SOURCE[0]}")/library.sh"
exec cargo run --offline --quiet --release --manifest-path "$manifest" -p compare -- "$@"
