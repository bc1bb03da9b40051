#!/bin/sh
# Tries the program that a page shows: takes the program and the text from the page, compiles the program, runs it on standard input, and
# compares its status and what it prints with the page.
#
#     examples/try_page.sh PAGE STATUS ARCHIVE WORK     PAGE is the name of a page of docs/ without its ending; WORK is a directory for what is made on the way
#
# CC is the compiler with its flags; EMULATOR runs what it compiles, where the machine itself does not.
set -eu
page=$(dirname "$0")/../docs/$1.md
status=$2
archive=$3
made=$4/$1
mkdir -p "$4"

# The lines of the page between the fence of that name and the next fence.
block() {
    awk -v fence="\`\`\`$1" '$0 == "```" { on = 0 } on { print } $0 == fence { on = 1 }' "$page"
}

block c > "$made.c"
block text > "$made.expected"
# A page without the two blocks is a fault, too.
test -s "$made.c"
test -s "$made.expected"

$CC "$made.c" "$archive" -o "$made"
ended=0
${EMULATOR-} "$made" > "$made.printed" || ended=$?
if test "$ended" -ne "$status"; then
    echo "docs/$1.md: its program ends with status $ended and not $status" >&2
    exit 1
fi
cmp "$made.printed" "$made.expected"
echo "docs/$1.md: its program prints what the page says"
