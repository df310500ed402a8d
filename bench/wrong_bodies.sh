#!/bin/sh
# Tries all wrong bodies of tests/wrong_bodies.toml, one for each processor side by side, and ends with the number of those that nothing refused.
# Usage: bench/wrong_bodies.sh [NAME ..]     (bodies, else all; words of tests/wrong_bodies.py may stand before)
here=$(CDPATH= cd -- "$(dirname -- "$0")/.." && pwd) || exit 1
exec python3 "$here/tests/wrong_bodies.py" --jobs "$(nproc)" "$@"
