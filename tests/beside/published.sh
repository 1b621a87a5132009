# Read by the scripts that need the published Rust: its folder is the one that FLOW_SRC names, ../shared/docs/src/crates by default, and
# cargo builds into tests/rust/target. Where the folder or cargo is absent, the script that reads this says so and ends.
FLOW_SRC=${FLOW_SRC:-../shared/docs/src/crates}
[ -d "$FLOW_SRC" ] || { echo "$(basename "$0"): the published Rust is not there (FLOW_SRC=$FLOW_SRC), nothing compared"; exit 0; }
command -v cargo > /dev/null || { echo "$(basename "$0"): cargo is not there, nothing compared"; exit 0; }
FLOW_SRC=$(cd "$FLOW_SRC" && pwd)
CARGO_TARGET_DIR=$PWD/tests/rust/target
export FLOW_SRC CARGO_TARGET_DIR

# build ARGUMENTS.. : builds a package of tests/rust, or of bench/.
build() {
    cargo build --quiet --offline --manifest-path tests/rust/Cargo.toml "$@"
}
