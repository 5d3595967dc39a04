#!/bin/sh
# The listing program on the inputs of tests/listing: each NAME.in on standard input must print NAME.out, byte for byte.
# `rt ci` builds the program, and so does ./list. The groups' outputs are the original Rust's answers, laid out as document 01 says.
cd "$(dirname "$0")/.." || exit 1
. tools/machine.sh
to_run
program="$emulator crates/listing/out/listing"
got=$(mktemp) || exit 1
trap 'rm -f "$got"' EXIT
same=0
differ=0
for input in tests/listing/*.in; do
    if $program <"$input" >"$got" && cmp -s "$got" "${input%.in}.out"; then
        same=$((same + 1))
    else
        echo "differs: $input"
        differ=$((differ + 1))
    fi
done
if [ "$differ" -ne 0 ]; then
    echo "listing: $differ inputs differ, $same agree"
    exit 1
fi
echo "listing: $same inputs agree"
