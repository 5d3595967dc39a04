#!/bin/sh
# here.sh [PROCESSOR]: the archives for another processor than x86-64, in target/here/staticlib; ./archives calls this on a machine that has one. They are not what
# is shipped: the same proved crates, but compiled by another back end, so that a host runs there without an emulator and times mean something (tests/speed.py).
set -eu
cd "$(dirname "$0")/.."
for=${1:-$(uname -m)}
echo "here: the same crates for $for, by another back end than what is shipped" >&2
tools/build.py archives
exec tools/build.py archives "$for-unknown-linux-gnu" target/here/staticlib
