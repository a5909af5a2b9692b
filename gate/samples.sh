#!/bin/sh
# The program `showplan` on each text of samples/plans, beside what the original plans of it.
set -u
cd "$(dirname "$0")/.." || exit 1
passed=0 failed=0
for text in samples/plans/*.adi; do
    if gate/showplan.sh "$text" | cmp -s - "${text%.adi}.txt"; then
        passed=$((passed + 1))
    else
        failed=$((failed + 1))
        echo "$text: showplan prints something else than ${text%.adi}.txt"
    fi
done
echo "samples: $passed passed, $failed failed"
[ "$failed" = 0 ] && [ "$passed" -gt 0 ]
