# Read by the scripts beside it: finds what they need, or says what is missing.

root=$(dirname "$here")
export CARGO_TARGET_DIR="$root/target/compare"
export BOARD_ARCHIVE="$root/crates/board/out/libboard.a"
show="$root/crates/show/out/show"

fail() {
    echo "$(basename "$0"): $1" >&2
    exit 1
}

need() {
    command -v cargo >/dev/null 2>&1 ||
        fail "cargo is missing: the separate program is written in Rust and has to be built"
    [ -f "$BOARD_ARCHIVE" ] || fail "crates/board/out/libboard.a is missing: make it with 'rt lib' in crates/board"
}

need_show() {
    [ -x "$show" ] || fail "crates/show/out/show is missing: ./show builds it"
}
