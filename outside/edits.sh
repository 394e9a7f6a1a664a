#!/bin/bash
# Tries wrong bodies that the gate does not: those of outside/edits/CRATE, beside the crate's own of crates/CRATE/must-fail.
# usage: outside/edits.sh CRATE..     in a clone that nothing else works in; exits with 0 where the prover refuses each
cd "$(dirname "$0")/.." || exit 1
[ $# -gt 0 ] || { echo "usage: outside/edits.sh CRATE.." >&2; exit 2; }
for crate; do
    [ -f "crates/$crate/src/lib.rt" ] || { echo "edits.sh: $crate is no library of crates/" >&2; exit 2; }
done
command -v rt > /dev/null || { echo "edits.sh: the toolchain's rt is not on the PATH" >&2; exit 1; }
put=()
take_back() { rm -f "${put[@]}"; for crate; do rmdir --ignore-fail-on-non-empty "crates/$crate/must-fail"; done; }
trap 'take_back "$@"' EXIT
for crate; do
    mkdir -p "crates/$crate/must-fail"
    for edit in outside/edits/"$crate"/*.edit; do
        to=crates/$crate/must-fail/${edit##*/}
        [ -e "$edit" ] || continue
        [ ! -e "$to" ] || { echo "edits.sh: $to is there already" >&2; exit 1; }
        cp "$edit" "$to" && put+=("$to")
    done
done
rt must-fail "$@"
