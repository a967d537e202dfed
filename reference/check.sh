#!/bin/sh
# Runs a desk program in every folder of a vectors folder and compares what
# it prints with expected.txt:  check.sh DESK VECTORS
desk=$(cd "$(dirname "$1")" && pwd)/$(basename "$1")
good=0 bad=0
for run in "$2"/*/; do
    if (cd "$run" && "$desk" <events.bin) 2>&1 | cmp -s - "$run/expected.txt"; then
        good=$((good + 1))
    else
        bad=$((bad + 1))
        echo "differs: $run"
    fi
done
echo "$good match, $bad differ"
[ "$bad" = 0 ]
