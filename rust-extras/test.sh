#!/bin/sh
# Tests rust-extras with Debian's packages of crates: librust-bytes-dev, librust-criterion-dev, librust-proptest-dev. If they
# are not installed, the script says so, with status 0. REGISTRY is their folder, /usr/share/cargo/registry by default.
set -eu

cd "$(dirname "$0")"
registry=${REGISTRY:-/usr/share/cargo/registry}
for crate in bytes criterion proptest; do
    ls "$registry" 2>/dev/null | grep -q "^$crate-[0-9]" || {
        echo "rust-extras: skipped, since librust-bytes-dev, librust-criterion-dev or librust-proptest+default-dev is not installed"
        exit 0
    }
done
cargo() { command cargo --config "source.debian.directory='$registry'" "$@"; }
cargo test --offline --quiet
cargo check --offline --quiet --benches
echo "rust-extras: tests passed, benches checked"
