# Sourced, in the top folder, by what runs or links our programs and archives, which are for x86-64. On another processor
# Debian has an emulator and cross compilers: every answer is the same there, and no time means anything.
emulator=                      # what runs a program for x86-64
CC=gcc                         # what compiles C for it
released=host/target/release   # where cargo leaves what it has built

to_run() {
    [ "$(uname -m)" = x86_64 ] && return
    tools/install.sh qemu-user libc6:amd64
    emulator=qemu-x86_64
}

to_build() {
    to_run
    [ -n "$emulator" ] || return 0
    tools/install.sh rustc-web libstd-rust-web-dev:amd64 gcc-x86-64-linux-gnu libc6-dev-amd64-cross
    CC=x86_64-linux-gnu-gcc
    released=host/target/x86_64-unknown-linux-gnu/release
    export CARGO_BUILD_TARGET=x86_64-unknown-linux-gnu
    export CARGO_TARGET_X86_64_UNKNOWN_LINUX_GNU_LINKER=$CC CARGO_TARGET_X86_64_UNKNOWN_LINUX_GNU_RUNNER=$emulator
    # The compiler has to be the one that the library for x86-64 came with.
    export RUSTC=/usr/bin/rustc RUSTDOC=/usr/bin/rustdoc
}
