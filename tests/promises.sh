#!/bin/sh
# docs/PROMISES.md and the tree agree: tests/promises.py says how.
. "$(dirname "$0")/common.sh"
need python3
python3 "$root/tests/promises.py"
