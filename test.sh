#!/usr/bin/env bash
# The test command: proves every crate from nothing, tries the must-fail edits, runs the programs, and then the repository's own tests
# of the archive and against a second program. What can fail early comes before the proofs. The last line is rt ci's own count.
set -euo pipefail
cd "$(dirname "$0")"
command -v rt >/dev/null || {
    echo "test.sh: rt, the Rattle kit's tool, is not on the PATH: without it nothing here can be proved or built" >&2
    exit 2
}
log=$(mktemp)
trap 'rm -f "$log"' EXIT
calls=${CALLS:-300000}

step() { printf '== %s (%s s)\n' "$1" "$SECONDS"; }

step 'tools'
# All that later steps need, so that none is found missing after the proofs. need TOOL PACKAGE..
packages=()
need() { command -v "$1" >/dev/null || packages+=("${@:2}"); }
need cargo cargo
need python3 python3
need awk mawk
need gcc gcc libc6-dev
need x86_64-linux-gnu-readelf binutils-x86-64-linux-gnu
[ "$(uname -m)" = x86_64 ] || packages+=(gcc-x86-64-linux-gnu libc6-dev-amd64-cross)
tests/install.sh "${packages[@]}"

step 'the second program by itself'
cargo test --offline --quiet --manifest-path second/Cargo.toml
cargo build --offline --quiet --release --manifest-path second/Cargo.toml

step 'proofs, must-fail edits and programs'
rt ci 2>&1 | tee "$log"
# An edit whose text no longer stands fails nothing in rt ci; here it does.
if grep -E '^rt: ok.*, [0-9]+ bad' "$log"; then
    echo "test.sh: a must-fail edit is bad: mend it" >&2
    exit 1
fi
grep -q '^rt: ok' "$log"
# What rt ci built is run below.
mkdir -p target/bin target/staticlib
for program in crates/*/src/main.rt; do
    name=$(basename "$(dirname "$(dirname "$program")")")
    cp "crates/$name/out/$name" "target/bin/$name"
done
bench="second/bench.sh target/bin/bench"

step 'what each must-fail edit was refused at'
python3 tests/try_edits.py "$log" target/must-fail
python3 tests/edits.py target/must-fail

step 'the three archives for C'
# archived NAME STACK: the archive of console, shelf or small, what it takes, and how much stack its calls take
archived() {
    local archive=target/staticlib/lib$1_c.a
    ./build.sh "$1_c"
    tests/archive.sh "$archive" | tr , '\n' | sed "s/^ */$1: /" | tests/at_most.sh README.md
    second/driver/build.sh "$archive" "target/$1_stack" "$2"
    second/driver/run.sh "target/$1_stack" | tests/at_most.sh README.md
}
# example SHELF NAME: an example over that shelf's archive
example() {
    second/driver/build.sh "target/staticlib/lib$1_c.a" "target/$2" "examples/$2.c"
    second/driver/run.sh "target/$2" | diff - "examples/$2.txt"
}
archived console tests/console_stack.c
archived shelf tests/stack.c
archived small tests/stack.c
example shelf case
example small small
example shelf console
# The console's archive is linked into both drivers.
second/driver/build.sh target/staticlib/libshelf_c.a target/shelf_driver
second/driver/build.sh target/staticlib/libsmall_c.a target/small_driver

step "the library against the second program, $calls calls for each shelf"
second/target/release/differ large 'second/driver/run.sh target/shelf_driver' "$calls"
second/target/release/differ small 'second/driver/run.sh target/small_driver' "$calls"

step "the bench program's stored streams are those worked out by hand, and longer ones"
python3 tests/make_streams.py --check
python3 tests/long_streams.py

step "the wardens' program against a model of its lines"
python3 tests/warden.py

step "the regulator's program against Python's csv, and against a shelf's reports"
python3 tests/orders.py

step "the wardens' program for saved files against a model of the format"
python3 tests/zonefile.py

step 'the bench program against the second program'
second/target/release/streams "$bench"

step 'errors planted in the second program are found'
second/planted.sh "$PWD/second/driver/run.sh $PWD/target/shelf_driver" "$PWD/second/driver/run.sh $PWD/target/small_driver"

step 'done'
tail -n 1 "$log"
