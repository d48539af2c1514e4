#!/usr/bin/env bash
# Builds the bench program, where it is not built from the sources as they are, and runs it on the fixed rack: events from standard
# input, or from a file. Standard output is the bench's text alone; what is being built is told on standard error.
set -euo pipefail
[ $# -eq 0 ] || exec <"$1"
cd "$(dirname "$0")"
command -v rt >/dev/null || {
    echo "bench.sh: rt, the Rattle kit's tool, is not on the PATH: without it the bench can be neither built nor run" >&2
    exit 2
}

say() { echo "bench.sh: $*" >&2; }

if [ ! -x target/bin/bench ]; then
    say "building the bench, which proves every crate that it stands on: some minutes. Each is named once it is checked."
elif [ -n "$(find crates -name out -prune -o -newer target/bin/bench -type f -print -quit)" ]; then
    say "the sources are newer than the bench: what has changed is proved again"
fi
./build.sh bench </dev/null
exec second/bench.sh target/bin/bench
