#!/bin/sh
# The gate's last step: rt ci, at the top of the checkout. Fails where rt ci fails, and where it passes but tells of must-fail edits that are bad: one that cannot be applied shows nothing of a
# promise. What rt says is printed as it comes, and where all is well nothing is printed behind its last line, the verdict.
#
#     setup/gate.sh WORK     WORK is a directory for what is made on the way
set -eu
work=$1
mkdir -p "$work"
rm -f "$work/status"
{
    status=0
    rt ci 2>&1 || status=$?
    echo "$status" > "$work/status"
} | tee "$work/said"
status=$(cat "$work/status")
if test "$status" -eq 0 && grep -Eq '^rt: ok.*, [0-9]+ bad' "$work/said"; then
    echo "setup/gate.sh: some must-fail edits are bad (the lines BAD EDIT above)" >&2
    status=1
fi
exit "$status"
