#!/bin/sh
# Builds a C program over shelf.h for the library's machine, x86-64, whichever machine this is. Where the archive is
# libsmall_c.a, SMALL is defined, and driver.c goes over small.h instead. A source that includes console.h, as driver.c does,
# is linked with libconsole_c.a too, which is then beside the archive.
#
# build.sh ARCHIVE PROGRAM [SOURCE]    SOURCE is driver.c where it is not named
set -eu
here=$(cd "$(dirname "$0")" && pwd)
archive=$1
program=$2
source=${3:-$here/driver.c}
case $archive in
*libsmall_c.a) profile=-DSMALL ;;
*) profile=-USMALL ;;
esac

console=
if grep -q '^#include.*console\.h' "$source"; then
    console=$(dirname "$archive")/libconsole_c.a
fi

case $(uname -m) in
x86_64)
    command -v gcc >/dev/null || "$here/../../tests/install.sh" gcc libc6-dev
    compiler=gcc
    ;;
*)
    "$here/../../tests/install.sh" gcc-x86-64-linux-gnu libc6-dev-amd64-cross
    compiler=x86_64-linux-gnu-gcc
    ;;
esac
# Static, so that another machine needs no x86-64 libraries to run it.
"$compiler" -std=c11 -O2 -Wall -Wextra -static "$profile" -I "$here/../../include" "$source" "$archive" \
    ${console:+"$console"} -o "$program"
