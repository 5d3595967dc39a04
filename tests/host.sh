#!/bin/sh
# After host/build.sh, which makes the archives. The Rust crate host/hypergroup, offline: its tests, in dev, where Rust looks for overflow, and in release; the examples in its
# documentation; no warning, nor of clippy, where that is installed; the stream example, whose two viewers must end at one state and whose bad images must be refused. Without an
# archive it is checked and documented, and a build says why it fails, also for machines that this is not. On a machine that is not x86-64 all of it natively and under the emulator.
set -eu
cd "$(dirname "$0")/../host"
export RUSTFLAGS="-D warnings"
says() { printf '%s\n' "$out" | grep -q "$1" || { printf 'this does not say: %s\n%s\n' "$1" "$out"; exit 1; }; }

whole() {
    cargo test --offline --quiet --package hypergroup
    cargo test --offline --quiet --release --package hypergroup
    out=$(cargo run --offline --quiet --release --package hypergroup --example stream)
    says '^on the screen: cube$'
    says '^both viewers are at state 14$'
    says '^all 6 tiles of the wall are at state 14$'
    says 'refused (12): no group has these right steps'
    says 'refused (16): the image is malformed'
}

no_archive() {
    export HYPERGROUP_ARCHIVES=/nowhere CARGO_TARGET_DIR=../target/no_archive
    cargo check --offline --quiet --package hypergroup --all-targets
    RUSTDOCFLAGS="-D warnings" cargo doc --offline --quiet --package hypergroup
    # Debian's own is older than the compiler that knows the edition.
    if cargo clippy --version >/dev/null 2>&1 && [ "$(clippy-driver --rustc --version 2>/dev/null)" = "$(${RUSTC:-rustc} --version)" ]; then
        cargo clippy --offline --quiet --package hypergroup --all-targets -- -D warnings
    else
        echo 'cargo clippy is not installed here for this compiler, so that it is left out'
    fi
    if out=$(cargo build --offline --package hypergroup 2>&1); then echo 'a build without an archive does not fail'; exit 1; fi
    says 'could not find native static library .hypergroup (HYPERGROUP_ARCHIVES names a folder without libhypergroup.a)'
}

# What the build script says when cargo tells it of these machines.
script() { # ARCH OS WIDTH LINE
    out=$(CARGO_MANIFEST_DIR=$PWD/hypergroup CARGO_CFG_TARGET_ARCH=$1 CARGO_CFG_TARGET_OS=$2 CARGO_CFG_TARGET_POINTER_WIDTH=$3 ../target/no_archive/script)
    says "$4"
}
machines() {
    ${RUSTC:-rustc} --edition 2024 -D warnings -o ../target/no_archive/script hypergroup/build.rs
    unset HYPERGROUP_ARCHIVES
    for machine in 'x86_64 windows 64' 'aarch64 macos 64' 'x86_64 linux 32' 'riscv64 linux 64'; do
        # shellcheck disable=SC2086
        script $machine "^cargo:rustc-link-lib=static=hypergroup (The proved library is compiled for x86-64 Linux and 64-bit Arm Linux, not for ${machine% *} (${machine##* }-bit))$"
    done
    script aarch64 linux 64 '^cargo:warning=This build is for Arm\. .* by another back end'
    script aarch64 linux 64 '^cargo:rustc-link-search=native=.*/target/here/staticlib$'
    script x86_64 linux 64 '^cargo:rustc-link-search=native=.*/target/staticlib$'
    export HYPERGROUP_ARCHIVES=../target/staticlib
    script x86_64 linux 64 '^cargo:rustc-link-lib=static=hypergroup (HYPERGROUP_ARCHIVES is not an absolute path)$'
}

(no_archive)
(machines)
if [ "$(uname -m)" != x86_64 ]; then (CARGO_TARGET_DIR=../target/here/cargo && export CARGO_TARGET_DIR && whole); fi
cd ..
. tools/machine.sh
to_build
cd host
whole
echo "the crate's tests pass in dev and release, and the stream example says what it should"
