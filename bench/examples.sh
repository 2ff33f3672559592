#!/usr/bin/env bash
# Runs each term of examples/ with its proof, by the program itself. That includes those whose proof is too long for the gate.
# Prints the size of the proof, the seconds of the run, what `verify` prints, and the seconds that it takes. If the machine has
# the program `metamath`, that reads the proof too. Not part of the gate.
set -u
top=$(cd "$(dirname "$0")/.." && pwd)
work=$(mktemp -d)
trap 'rm -rf "$work"' EXIT
seconds() { local TIMEFORMAT=%U; { time "$@" > "$work/said" || true; } 2>&1; }
status=0
for words in "$top"/examples/*/*.words; do
    folder=${words%/*}
    term=${words##*/}
    term=${term%.words}
    name=${folder##*/}/$term
    options=$(sed 's/--proof.*//' "$words")
    # The options are words, which the shell has to split.
    # shellcheck disable=SC2086
    run=$(seconds "$top/kore_prove" run "$folder/definition.kore" "$folder/$term.kore" $options --proof "$work/proof.mm")
    cmp -s "$work/said" "$folder/$term.out" || { echo "$name prints other lines"; status=1; }
    check=$(seconds "$top/kore_prove" verify "$work/proof.mm")
    said=$(cat "$work/said")
    [ "${said%% *}" = valid ] || status=1
    echo "$name: $(wc -c < "$work/proof.mm") bytes in $run s; $said, in $check s"
    if command -v metamath > /dev/null; then
        "$top/.ci/metamath" "$work/proof.mm" > "$work/said" || { cat "$work/said"; status=1; }
    fi
done
exit "$status"
