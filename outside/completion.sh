#!/bin/bash
# Asks the completion of completion/ssu.bash for some beginnings, and compares its answers.
# usage: outside/completion.sh        exits with 0 where all are as they must be
cd "$(dirname "$0")/.." || exit 1
source completion/ssu.bash
compopt() { :; }
wrong=0

# The answers for these words, of which the last is to be completed, sorted.
complete_for() {
    COMP_WORDS=("$@")
    COMP_CWORD=$(($# - 1))
    _ssu
    printf '%s\n' "${COMPREPLY[@]}" | sort | xargs
}

same() {
    local wanted=$1 found
    shift
    found=$(complete_for "$@")
    if [ "$found" != "$wanted" ]; then
        echo "${*@Q}: $found, and not $wanted"
        wrong=1
    fi
}

same 'examples/' ssu exam
same '--help --version' ssu --
same 'air audit blank boot build find format hear load migrate replay sample show' ssu examples/nightly ''
same 'blank boot build' ssu examples/nightly b
same 'boot.bin box.toml' ssu examples/nightly format bo
same '256 257 258' ssu examples/nightly hear ''
same '258' ssu examples/nightly load 258
same 'spares' ssu examples/nightly migrate ''
same '256 257 258' ssu examples/nightly audit ''
same '256 257' ssu examples/nightly audit 258 ''
same '' ssu examples/nightly load 258 ''
same 'spares' ssu examples/nightly replay ''
same 'spares' ssu examples/nightly format boot.bin sp
same '' ssu examples/nightly find ''
same 'spares' ssu examples/nightly boot s
same '' ssu examples/nightly boot spares ''
same '' ssu --help ''
[ "$wrong" -eq 0 ] && echo "completion: as stated"
exit "$wrong"
