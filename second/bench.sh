#!/bin/sh
# Runs a program that rt built. It is for x86-64: on another machine under Debian's emulator.
#
# bench.sh PROGRAM [ARGUMENT..]
set -eu
exec "$(dirname "$0")/driver/run.sh" "$@"
