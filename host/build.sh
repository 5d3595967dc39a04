#!/bin/sh
# Builds `ours`, the proved library behind the oracle's commands, as target/ours: ./archives, then host/ours over host/hypergroup. On a machine that is not
# x86-64 there is also target/here/ours, for its own processor, by which times are measured (tests/speed.py).
set -eu
cd "$(dirname "$0")/.."
./archives
. tools/machine.sh
if [ "$(uname -m)" != x86_64 ]; then
    (cd host && CARGO_TARGET_DIR=../target/here/cargo cargo build --offline --quiet --release --package ours)
    cp target/here/cargo/release/ours target/here/ours
fi
to_build
(cd host && cargo build --offline --quiet --release --package ours)
if [ -z "$emulator" ]; then
    cmp -s $released/ours target/ours || cp $released/ours target/ours
else
    printf '#!/bin/sh\nexec %s "$(dirname "$0")/../%s/ours" "$@"\n' $emulator $released >target/ours
    chmod +x target/ours
fi
