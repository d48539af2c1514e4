#!/bin/sh
# Runs an x86-64 program: on another machine under Debian's emulator.
#
# run.sh PROGRAM [ARGUMENT..]
set -eu
machine=$(uname -m)
[ "$machine" = x86_64 ] && exec "$@"
command -v qemu-x86_64 >/dev/null || "$(dirname "$0")/../../tests/install.sh" qemu-user
exec qemu-x86_64 "$@"
