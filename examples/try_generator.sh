#!/bin/sh
# Tries the generator of docs/JOBFILE.md: takes the program and the text from the page, runs the program, and compares
# what slotline prints for its job with the text. Then it has the program write some thousand records, which is a job of
# version 2, and sees that slotline prints a line for each.
#
#     examples/try_generator.sh SLOTLINE WORK     WORK is a directory for what is made on the way
set -eu
slotline=$1
work=$2
page=$(dirname "$0")/../docs/JOBFILE.md

# The lines of the page between the fence of that name and the next fence.
block() {
    awk -v fence="\`\`\`$1" '$0 == "```" { on = 0 } on { print } $0 == fence { on = 1 }' "$page"
}

mkdir -p "$work"
block python > "$work/generator.py"
block text > "$work/expected"
python3 "$work/generator.py" > "$work/job.slt"
"$slotline" < "$work/job.slt" > "$work/printed"
# A page without the two blocks is a fault, too.
test -s "$work/generator.py"
test -s "$work/expected"
cmp "$work/printed" "$work/expected"

# The same four records a thousand times.
sed 's/job(\[aich, pich\] + slots)/job(([aich, pich] + slots) * 1000)/' "$work/generator.py" > "$work/thousands.py"
python3 "$work/thousands.py" > "$work/thousands.slt"
"$slotline" < "$work/thousands.slt" > "$work/thousands.printed"
test "$(head -n 1 "$work/thousands.printed")" = "SLT 2 4000"
test "$(wc -l < "$work/thousands.printed")" -eq 4001
echo "docs/JOBFILE.md: its generator's job prints what the page says, and one of 4000 records is of version 2"
