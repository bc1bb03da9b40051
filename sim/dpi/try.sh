#!/bin/sh
# Tries slt_pkg.sv and slt_dpi.c under Verilator: every call once accepted and once refused prints what the same calls from C print.
#
#     sim/dpi/try.sh SLT_PKG SLT_DPI ARCHIVE INCLUDE WORK
#
# CC and CXX are the compilers; EMULATOR runs what they compile, where the machine itself does not.
set -eu
here=$(cd "$(dirname "$0")" && pwd)
package=$1 dpi=$(realpath "$2") archive=$(realpath "$3") include=$(realpath "$4") work=$5
mkdir -p "$work"

# Each call of the header is imported and tried twice.
for name in $(sed -n 's/^[a-z].*[ *]\(slt_[a-z0-9_]*\)(.*/\1/p' "$include/slt.h"); do
    grep -q "function longint unsigned $name(" "$package" || { echo "$package does not import $name" >&2; exit 1; }
    test "$(grep -c "^ASK(\"$name\"" "$here/calls.txt")" -ge 2 || { echo "calls.txt does not try $name twice" >&2; exit 1; }
done

${CC:-cc} -std=c11 -Wall -Wno-misleading-indentation -I"$include" "$here/host.c" "$archive" -o "$work/host"
${EMULATOR-} "$work/host" > "$work/from-c"
grep '^slt_' "$work/from-c" | awk '(NR % 2 == 1) != ($2 == 0) { print "not accepted, then refused: " $1; wrong = 1 } END { exit wrong }'

sed -n 's/\b\(ASK\|RUN\|SHOW\|REAL\|REF\|OUT\)(/`\1(/gp' "$here/calls.txt" > "$work/calls.svh"
verilator --binary -j 1 -Wno-lint --top bench --Mdir "$work/obj" -o bench "-I$work" -CFLAGS "-I$include" -MAKEFLAGS "CXX=${CXX:-g++} LINK=${CXX:-g++}" \
    "$package" "$here/bench.sv" "$dpi" "$archive" > "$work/verilator.log" 2>&1 || { tail -20 "$work/verilator.log" >&2; exit 1; }
${EMULATOR-} "$work/obj/bench" > "$work/printed"
grep -v -e '^#' -e '^- ' "$work/printed" > "$work/from-systemverilog"
cmp "$work/from-c" "$work/from-systemverilog"

# Each number of a refusal has its words.
for number in $(sed -n 's/^#define SLT_REFUSED_[A-Z_]* \([0-9]*\)u.*/\1/p' "$include/slt.h"); do
    grep -q "^# $number: " "$work/printed" || { echo "slt_refusal has no words for $number" >&2; exit 1; }
done
echo "slt_pkg: $(grep -c '^slt_' "$work/from-c") answers, accepted and refused, are the library's"
