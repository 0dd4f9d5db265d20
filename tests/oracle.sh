# Read by lists.sh and diff.sh, from the root: `missing` says what keeps the oracle from being built, if anything does.
original=${ORIGINAL:-../shared/docs/src}
missing=
if ! command -v cargo >/dev/null 2>&1; then
    missing="there is no cargo here"
elif ! [ -d "$original/src/recovery" ] && ! [ -d "$original/quiche/src/recovery" ]; then
    missing="the original is not in $original"
fi

# It is built in target/oracle, or in the folder, by its full path, that the variable ORACLE_TARGET names.
built=${ORACLE_TARGET:-$PWD/target/oracle}
oracle=$built/release/oracle
build_oracle() {
    ORIGINAL=$(cd "$original" && pwd) CARGO_TARGET_DIR=$built \
        cargo build --release --quiet --manifest-path oracle/Cargo.toml
}
