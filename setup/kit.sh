#!/bin/sh
# Prints the identity of the kit that proves here, and says in one line if it is another than the one that everything was last seen with. setup/kit is the one place
# that names that one, and the audit asks that the pages say the same. Another kit is no fault: a newer one may well do. But a proof is a proof by some checker, and who
# reads a verdict has to know by which.
#
#     setup/kit.sh
set -eu
pinned=$(cat "$(dirname "$0")/kit")

# Where there is no rt, setup/tools.sh says what to do about it.
command -v rt > /dev/null 2>&1 || exit 0
found=$(rt version 2> /dev/null) || found="one that does not tell its version"
echo "kit: $found"
if test "$found" != "$pinned"; then
    echo "kit: this is not the pinned kit (setup/kit: $pinned). It may well do, but what the pages tell was seen with that one" >&2
fi
