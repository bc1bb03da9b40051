#!/bin/sh
# Looks into the shared library: it exports the functions of the header and no other name, asks for memcpy and memset alone, has its soname, and its code is
# the same wherever it is loaded.
#
#     packaging/try_shared.sh LIBRARY HEADER SONAME WORK     WORK is a directory for what is made on the way
#
# NM and READELF are the programs that look into it.
set -eu
library=$1
header=$2
soname=$3
work=$4

mkdir -p "$work"
"${NM:-nm}" -D --defined-only "$library" | awk '{print $3}' | sort > "$work/exported"
sed -n 's/^[a-z][a-z0-9_]* \(slt_[a-z0-9_]*\)(.*/\1/p' "$header" | sort > "$work/declared"
test -s "$work/declared"
if ! diff "$work/declared" "$work/exported" >&2; then
    echo "$library exports other names (>) than $header declares (<)" >&2
    exit 1
fi

asked=$("${NM:-nm}" -D --undefined-only "$library" | awk '{sub(/@.*/, "", $2); print $2}' | sort | tr '\n' ' ')
if test "$asked" != "memcpy memset "; then
    echo "$library asks for other functions than memcpy and memset: $asked" >&2
    exit 1
fi

"${READELF:-readelf}" -dW "$library" > "$work/dynamic"
grep -q "(SONAME).*\[$soname\]" "$work/dynamic" || { echo "the soname of $library is not $soname" >&2; exit 1; }
if grep -q TEXTREL "$work/dynamic"; then
    echo "the code of $library is changed where it is loaded" >&2
    exit 1
fi
echo "shared: $soname exports $(wc -l < "$work/exported") functions, those of $header, and asks for memcpy and memset"
