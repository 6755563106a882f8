#!/bin/sh
# The layout of all Rattle files: layout.sh --check names those that are not in it, layout.sh --write puts them right.
# rt fmt does so for one crate, and has no --check; both call the kit's compiler.
set -eu

kit=$(dirname "$(dirname "$(readlink -f "$(command -v rt)")")")
find crates/*/src crates/*/specs crates/*/proofs -type f \( -name '*.rt' -o -name '*.antt' \) -exec "$kit/bin/rattle" fmt "$1" {} +
