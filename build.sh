#!/usr/bin/env bash
# Proves crates and puts what they build where README and the other scripts look for it: a program as target/bin/NAME, a library for C as
# target/staticlib/libNAME.a. What has not changed is not proved again.
#
# build.sh NAME..
set -euo pipefail
cd "$(dirname "$0")"
command -v rt >/dev/null || {
    echo "build.sh: rt, the Rattle kit's tool, is not on the PATH: without it nothing here can be proved or built" >&2
    exit 2
}

[ $# -gt 0 ] || {
    echo "build.sh NAME..: the programs, and the libraries for C, to be built" >&2
    exit 2
}

log=$(mktemp)
trap 'rm -f "$log"' EXIT

# A program that rt builds it also runs: here on an empty input. Each crate is named once it is checked.
built() {
    if (cd "crates/$1" && rt "${@:2}" </dev/null 2>&1 >/dev/null) | tee "$log" | sed -u -n 's/^crate \([a-z_0-9]*\): .*/build.sh: \1 is checked/p' >&2; then
        return 0
    fi
    cat "$log" >&2
    echo "build.sh: $1 is not built; above is what rt said" >&2
    exit 1
}

# rt says on standard output what it says of a library, and on standard error what it says of a program.
archived() {
    if ! (cd "crates/$1" && rt lib </dev/null) >"$log" 2>&1; then
        cat "$log" >&2
        echo "build.sh: $1 is not built; above is what rt said" >&2
        exit 1
    fi
}

mkdir -p target/bin target/staticlib
for name; do
    if [ -f "crates/$name/src/main.rt" ]; then
        built "$name" run
        cp "crates/$name/out/$name" "target/bin/$name"
    else
        archived "$name"
        cp "crates/$name/out/lib$name.a" "target/staticlib/lib$name.a"
    fi
done
