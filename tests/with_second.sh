# Sourced by the tests that run the second program, after tests/common.sh: builds it.

need cargo cargo
export CARGO_TARGET_DIR=$PWD/target/second
cargo build --offline --quiet --release --manifest-path second/Cargo.toml || die "the second program does not build."
second=$CARGO_TARGET_DIR/release/second
