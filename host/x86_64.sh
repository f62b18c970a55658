# Sourced by the host scripts, from the project's root, with `who` the name that messages begin with: the tools that
# build and run x86-64 programs here.
#
# The kit compiles Rattle for x86-64 Linux. On such a machine gcc and cargo make C and Rust, and programs run as they
# are. On another (Arm) Debian's cross compilers make them, and Debian's user emulator runs them. Nothing is installed
# here: host/packages does that.
#
# Sets: host_cc, host_run (words before a program, with the kit's loader and C library), host_bare (words before one
# that is linked statically), host_rust (words before one of Rust's), host_cargo (an array), host_target (cargo's
# folder), host_sanitize (gcc's checks that run here).
. host/proved.sh

# host_missing c|cpp|rust..: Debian's packages for these that are not there
host_missing() {
    local part
    for part in "$@"; do
        case $(uname -m).$part in
        x86_64.c) command -v gcc >/dev/null || echo gcc ;;
        *.cpp) command -v g++ >/dev/null || echo g++ ;;
        x86_64.rust) command -v cargo >/dev/null || echo cargo ;;
        *.c) cross_compiles || printf '%s\n' gcc-x86-64-linux-gnu libc6-dev-amd64-cross ;;
        *.rust) cross_missing rustc cargo libstd-rust-dev:amd64 qemu-user ;;
        esac
    done
}

cross_compiles() { x86_64-linux-gnu-gcc -E -x c - <<<'#include <stdio.h>' >/dev/null 2>&1; }

cross_missing() {
    local name
    for name in "$@"; do
        dpkg-query -W -f '${Status}' "$name" 2>/dev/null | grep -q 'ok installed' || echo "$name"
    done
}

# host_needs c|cpp|rust..: fails where something for these is missing, and says what to do
host_needs() {
    local missing
    missing=$(host_missing "$@" | tr '\n' ' ')
    [ -z "$missing" ] && return
    say "needs Debian's packages ${missing% }; 'host/packages' installs what is missing"
    return 1
}

kit_check || exit 1
host_cargo=(cargo build --release --offline --quiet --target-dir target/rust --manifest-path host/rust/Cargo.toml)
if [ "$(uname -m)" = x86_64 ]; then
    host_cc=gcc host_run='' host_bare='' host_rust='' host_target=target/rust/release
    host_sanitize='-fsanitize=address,undefined'
else
    # gcc's address check needs more address space than the emulator gives; the buffers' guard pages stay
    host_cc=x86_64-linux-gnu-gcc host_run="${kit_run[*]}" host_bare=${kit_run[0]} host_rust=/usr/bin/qemu-x86_64
    host_target=target/rust/x86_64-unknown-linux-gnu/release
    host_sanitize='-fsanitize=undefined'
    host_cargo[0]=/usr/bin/cargo
    host_cargo+=(--target x86_64-unknown-linux-gnu)
    export RUSTC=/usr/bin/rustc CARGO_TARGET_X86_64_UNKNOWN_LINUX_GNU_LINKER=$host_cc
    export CARGO_TARGET_X86_64_UNKNOWN_LINUX_GNU_RUNNER=$host_rust
fi
