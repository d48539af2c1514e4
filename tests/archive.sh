#!/usr/bin/env bash
# Holds the archive to what firmware without a C library, a heap and globals can link: no undefined symbol, no byte of data, no
# byte of bss. Prints its numbers in one line.
#
# archive.sh ARCHIVE
#
# Counted by a section's flags, not by its name: what is loaded and executable is code, what is writable is data (bss where the
# file holds no bytes for it), the rest are constants. A common symbol has no section yet and becomes bss.
set -euo pipefail
# Debian's package for these has the same name on every machine; the plain tools of another machine need not know x86-64.
binutils=x86_64-linux-gnu
command -v $binutils-readelf >/dev/null || "$(dirname "$0")/install.sh" binutils-x86-64-linux-gnu
work=$(mktemp -d)
trap 'rm -rf "$work"' EXIT

# numbers FILE: the line of numbers. It fails where FILE is no archive or object.
numbers() {
    local code=0 constants=0 data=0 bss=0 type size flags undefined common
    $binutils-readelf --wide --sections "$1" >"$work/sections" || exit 1
    $binutils-readelf --wide --symbols "$1" >"$work/symbols" || exit 1
    while read -r type size flags; do
        size=$((0x$size))
        case $flags in
        *W*) if [ "$type" = NOBITS ]; then bss=$((bss + size)); else data=$((data + size)); fi ;;
        *X*) code=$((code + size)) ;;
        *A*) constants=$((constants + size)) ;;
        esac
    done < <(sed -nE 's/^ *\[ *[0-9]+\] .* ([^ ]+) +[0-9a-f]{16} [0-9a-f]+ ([0-9a-f]+) [0-9a-f]+ +([A-Za-z]+) +[0-9]+ +[0-9]+ +[0-9]+$/\1 \2 \3/p' "$work/sections")
    # Each table starts with a symbol without a name, which is undefined by nature.
    undefined=$(awk '$7 == "UND" && NF > 7' "$work/symbols" | wc -l)
    common=$(awk '$7 == "COM" { bytes += $3 } END { print bytes + 0 }' "$work/symbols")
    echo "code $code, constants $constants, data $data, bss $((bss + common)), undefined symbols $undefined"
}

fits() { [[ $1 =~ ^code\ [1-9][0-9]*,\ constants\ [0-9]+,\ data\ 0,\ bss\ 0,\ undefined\ symbols\ 0$ ]]; }

# planted FITS ASSEMBLY: an object with that beside a function must fit, or must not.
planted() {
    printf '.text\n.globl f\nf: ret\n%b\n' "$2" | $binutils-as -o "$work/planted.o" -
    $binutils-ar rc "$work/planted.a" "$work/planted.o"
    if fits "$(numbers "$work/planted.a")"; then found=yes; else found=no; fi
    [ $found = "$1" ] || { echo "archive.sh: fits: $found, of an object with $2: $(numbers "$work/planted.a")" >&2; exit 1; }
    rm "$work/planted.a"
}

planted yes '.section .rodata\n.byte 1'
planted no 'call malloc'
planted no '.weak malloc\ncall malloc'
planted no '.data\n.byte 1'
planted no '.bss\n.zero 1'
planted no '.comm counter, 1'
planted no '.section .tbss, "awT", @nobits\n.zero 1'
planted no '.section .init_array, "aw"\n.quad f'

line=$(numbers "$1")
echo "$line"
fits "$line" || {
    echo "archive.sh: $1 needs more than code and constants:" >&2
    awk '$7 == "UND" && NF > 7 || $7 == "COM"' "$work/symbols" >&2
    exit 1
}
