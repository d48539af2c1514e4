#!/bin/sh
# Times the library beside the model on this machine: both shelves and the console.
#
# native.sh [ROOT [RUNS]]    ROOT is the repository, where it is not the folder above this one; of several runs each row's
#                            median is printed
set -eu
here=$(cd "$(dirname "$0")" && pwd)
root=$(cd "${1:-$here/..}" && pwd)
"$root/build.sh" shelf_c small_c console_c
lib=$root/target/staticlib
SHELF_LIB=$lib cargo build --quiet --release --offline --features native --bin timing --manifest-path "$here/Cargo.toml"
"$here/target/release/timing" "${2:-1}"
