# Sourced by whoever calls cargo: a compiler that builds for x86-64, and how to link and run what it builds. Installs nothing.
export CARGO_BUILD_TARGET=x86_64-unknown-linux-gnu

# Whether a compiler is there, is Rust 1.74 or newer, and has the standard library for x86-64.
builds_for_x86_64() { # COMPILER
    minor=$("$1" --version 2>/dev/null | sed -n 's/^rustc 1\.\([0-9]*\)\..*/\1/p')
    [ -n "$minor" ] && [ "$minor" -ge 74 ] || return 1
    ls "$("$1" --print target-libdir --target "$CARGO_BUILD_TARGET")"/libstd-*.rlib >/dev/null 2>&1
}

# RUSTC as it is set, else the first rustc, else Debian's; with it the rustdoc beside it.
choose_compiler() {
    if [ -n "${RUSTC:-}" ]; then
        builds_for_x86_64 "$RUSTC"
    elif builds_for_x86_64 rustc; then
        return 0
    elif builds_for_x86_64 /usr/bin/rustc; then
        export RUSTC=/usr/bin/rustc RUSTDOC=/usr/bin/rustdoc
    else
        return 1
    fi
}

# A tool that stands beside the compiler that was chosen.
beside_compiler() { # TOOL
    if [ -n "${RUSTC:-}" ]; then echo "$(dirname "$RUSTC")/$1"; else echo "$1"; fi
}

# Whether that compiler's rustfmt and clippy are there.
has_linters() {
    "$(beside_compiler rustfmt)" --version >/dev/null 2>&1 && "$(beside_compiler cargo-clippy)" --version >/dev/null 2>&1
}

# Whether everything is there that setup would install to build and run.
is_set_up() (
    {
        [ "$(uname -m)" = x86_64 ] || command -v qemu-x86_64 || return 1
        command -v cargo && command -v x86_64-linux-gnu-gcc && choose_compiler
    } >/dev/null
)

if [ "$(uname -m)" != x86_64 ]; then
    export CARGO_TARGET_X86_64_UNKNOWN_LINUX_GNU_LINKER=x86_64-linux-gnu-gcc
    export CARGO_TARGET_X86_64_UNKNOWN_LINUX_GNU_RUNNER="qemu-x86_64 -L /usr/x86_64-linux-gnu"
fi
