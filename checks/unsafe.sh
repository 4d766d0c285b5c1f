#!/bin/sh
# No crate and no test has unsafe code: by it a value that must be spent could be kept from its end.
# Usage: checks/unsafe.sh, anywhere. Its last line counts the crates, and the folder of tests.
# Runs beside the gate.
set -u
cd "$(dirname "$0")/.." || exit 1
passed=0
failed=0
for sources in crates/*/src tests; do
    grep -rnw unsafe "$sources"
    # The status is 1 where all was read and the word is not there.
    if [ $? = 1 ]; then
        passed=$((passed + 1))
    else
        failed=$((failed + 1))
    fi
done
echo "$passed passed, $failed failed"
[ "$failed" = 0 ] && [ "$passed" != 0 ]
