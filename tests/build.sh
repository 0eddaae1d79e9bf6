# Sourced by the scripts beside it: goes to the repository's root and says how their Rust programs are built.

cd "$(dirname "$0")/.."
mkdir -p target/tests

# build NAME [FLAG...]: compiles tests/NAME.rs to target/tests/NAME.
build() {
    name=$1
    shift
    rustc --edition 2021 -O -D warnings "$@" -L native=target/staticlib -o "target/tests/$name" "tests/$name.rs"
}
