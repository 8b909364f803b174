# shellcheck shell=bash disable=SC2034
# Sourced by bench/run and tools/large-runs: goes to the repository's top, and makes what they link in target/bench.
#
#   FLIGHT_ARCHIVE    an archive of `rt lib` in crates/flight to take as it is
#   SUCCPAREN_SRC     the checkout of the original, by default ../shared/docs/src beside the repository
#   CARGO_TARGET_DIR  where cargo builds, by default oracle/target
#   CC, CXX           by default gcc and g++

flight=${FLIGHT_ARCHIVE:+$(realpath -m "$FLIGHT_ARCHIVE")}
source=${SUCCPAREN_SRC:+$(realpath -m "$SUCCPAREN_SRC")}
cargo_target=${CARGO_TARGET_DIR:+$(realpath -m "$CARGO_TARGET_DIR")}
cd "$(dirname "${BASH_SOURCE[0]}")/.." || exit
source=${source:-$(realpath -m ../shared/docs/src)}
cargo_target=${cargo_target:-$PWD/oracle/target}
cc=${CC:-gcc}
cxx=${CXX:-g++}
parts=target/bench
mkdir -p "$parts"

# Nothing can run.
cannot() {
    echo "$1" >&2
    exit 3
}

# Our tree: sets `flight` and `flight_said`.
make_flight() {
    flight_said="an archive given by FLIGHT_ARCHIVE, not made by this run"
    [ "$(uname -m)" = x86_64 ] || cannot "this is no x86-64 machine; under an emulator the times would say nothing"
    command -v "$cc" >/dev/null || cannot "no C compiler $cc"
    [ -z "$flight" ] || return 0
    command -v rt >/dev/null || cannot "no rt on PATH, and FLIGHT_ARCHIVE is not set"
    if ! (cd crates/flight && rt lib) >"$parts/flight.log" 2>&1; then
        cat "$parts/flight.log" >&2
        exit 1
    fi
    flight=crates/flight/out/libflight.a
    flight_said="\`rt lib\` in crates/flight"
}

# The original Rust: sets `original` to what is linked, and `original_said`.
make_original() {
    original=$parts/original_absent.o
    if ! command -v cargo >/dev/null; then
        original_said="not here, no cargo on PATH"
    elif [ ! -f "$source/src/bitwise/mod.rs" ]; then
        original_said="not here, no source of succparen (SUCCPAREN_SRC)"
    elif ! SUCCPAREN_SRC=$source CARGO_TARGET_DIR=$cargo_target cargo build --offline --locked --release \
        --manifest-path oracle/Cargo.toml --example original >"$parts/cargo.log" 2>&1; then
        original_said="not here, it does not build: $parts/cargo.log"
    else
        original="$cargo_target/release/examples/liboriginal.a -lpthread -ldl -lm"
        original_said="$(rustc --version | cut -d' ' -f1,2), release"
    fi
}

# Debian's libsdsl-dev, installed or unpacked below target: sets `sdsl_root` ("" if installed).
find_sdsl() {
    sdsl_root=
    [ ! -f /usr/include/sdsl/bp_support_gg.hpp ] || return 0
    sdsl_root=$parts/sdsl
    [ ! -d "$sdsl_root/usr/include/sdsl" ] || return 0
    mkdir -p "$sdsl_root"
    (cd "$sdsl_root" && timeout 60 apt-get download libsdsl-dev && dpkg -x libsdsl-dev_*.deb .) >"$parts/sdsl.log" 2>&1
}

# sdsl: sets `sdsl` to what is linked, `sdsl_said` and the linker.
make_sdsl() {
    local archive
    sdsl=$parts/sdsl_absent.o
    sdsl_said="not to be had here (libsdsl-dev)"
    linker=$cc
    command -v "$cxx" >/dev/null && find_sdsl || return 0
    archive=$(find "$sdsl_root/usr/lib" -name libsdsl.a 2>/dev/null | head -1)
    [ -n "$archive" ] || return 0
    "$cxx" -O3 -DNDEBUG -w ${sdsl_root:+-I"$sdsl_root/usr/include"} -c bench/sdsl.cc -o "$parts/sdsl.o" >"$parts/sdsl.log" 2>&1 || return 0
    sdsl="$parts/sdsl.o $archive"
    sdsl_said="\`bp_support_gg<>\` of Debian's libsdsl-dev, $cxx -O3"
    linker=$cxx
}

# The C files named, as objects.
compile() {
    local name
    for name in "$@"; do
        "$cc" -std=gnu11 -O2 -Wall -Wextra -Iinclude -c "bench/$name.c" -o "$parts/$name.o"
    done
}
