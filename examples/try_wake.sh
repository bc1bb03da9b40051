#!/bin/sh
# Tries the program of docs/WAKE.md on the recording that the page tells of: the last frame is refused, which the program's status says.
#
#     examples/try_wake.sh ARCHIVE WORK     as try_page.sh has them
set -eu
mkdir -p "$2"
python3 - > "$2/frames" << 'RECORDING'
import sys
for ones, last in ((), 2), (range(36), 2), ((7,), 2), ((7,), 2), ((), 3):
    digits = [int(k // 8 in ones) for k in range(288)] + 11 * [2] + [last]
    sys.stdout.buffer.write(bytes(digits))
RECORDING
exec sh "$(dirname "$0")/try_page.sh" WAKE 1 "$1" "$2" < "$2/frames"
