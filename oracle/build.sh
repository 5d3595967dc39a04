#!/bin/sh
# Builds the oracle as oracle/target/release/oracle: installs the Debian
# packages that are missing, copies the originals in, compiles offline.
# Says nothing when all goes well.
set -eu
cd "$(dirname "$0")"

../tools/install.sh librust-itertools-dev librust-smallvec-dev
command -v cargo >/dev/null 2>&1 || ../tools/install.sh cargo-web
./setup.sh
cargo build --release --offline --quiet
