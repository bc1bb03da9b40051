#!/bin/sh
# Tries the scripts of this folder: setup/kit.sh with other kits, and setup/gate.sh with what rt ci may say.
#
#     setup/try.sh WORK     WORK is a directory for what is made on the way
set -eu
here=$(cd "$(dirname "$0")" && pwd)
mkdir -p "$1"
work=$(cd "$1" && pwd)
pinned=$(cat "$here/kit")

wrong() {
    echo "setup/try.sh: $*" >&2
    exit 1
}

# kit STATUS IDENTITY PRINTED TOLD: with an rt that says so and ends with that status, the script prints PRINTED and tells as many lines as TOLD; it never fails.
kit() {
    printf '#!/bin/sh\necho "%s"\nexit %s\n' "$2" "$1" > "$work/rt"
    chmod +x "$work/rt"
    PATH=$work:$PATH sh "$here/kit.sh" > "$work/printed" 2> "$work/told" || wrong "kit.sh fails where rt says '$2'"
    test "$(cat "$work/printed")" = "kit: $3" || wrong "kit.sh prints '$(cat "$work/printed")' where rt says '$2'"
    test "$(wc -l < "$work/told")" -eq "$4" || wrong "kit.sh tells '$(cat "$work/told")' where rt says '$2'"
}
kit 0 "$pinned" "$pinned" 0
kit 0 "rattle-kit-9 logic 0123456789abcdef" "rattle-kit-9 logic 0123456789abcdef" 1
grep -qF "(setup/kit: $pinned)" "$work/told" || wrong "kit.sh does not say which kit is pinned"
kit 2 "no such command" "one that does not tell its version" 1
rm "$work/rt"

# gate STATUS LINE WANTED: where rt ci prints the line and then its verdict, and ends with that status, the script prints both, the verdict last, and ends with WANTED.
gate() {
    printf '#!/bin/sh\ntest "$*" = ci || exit 9\necho "== run"\necho "told" >&2\necho "%s"\necho "2 passed, 0 failed"\nexit %s\n' "$2" "$1" > "$work/rt"
    chmod +x "$work/rt"
    status=0
    PATH=$work:$PATH sh "$here/gate.sh" "$work/gate" > "$work/printed" 2> "$work/told" || status=$?
    test "$status" = "$3" || wrong "gate.sh ends with $status where rt ends with $1 and says '$2'"
    printf '== run\ntold\n%s\n2 passed, 0 failed\n' "$2" | cmp -s - "$work/printed" || wrong "gate.sh prints '$(cat "$work/printed")' where rt says '$2'"
    test "$status" != 0 || test ! -s "$work/told" || wrong "gate.sh tells '$(cat "$work/told")' where all is well"
}
gate 0 'rt: ok; handles allowed: none; must-fail edits: 457 refused; every proof and must-fail edit was done in this run' 0
gate 0 'rt: ok; handles allowed: none' 0
gate 1 'rt: FAILED: run' 1
gate 2 'rt: crates.txt lists no crate' 2
gate 0 'rt: ok; handles allowed: none; must-fail edits: 456 refused, 1 bad; every proof and must-fail edit was done in this run' 1
gate 0 'rt: ok; handles allowed: none; must-fail edits: 440 refused, 3 of them only by a limit, 17 bad; every proof was done in this run' 1
rm "$work/rt"
echo "setup: another kit is told in one line, and the gate ends as rt ci does, but with a fault where a must-fail edit is bad"
