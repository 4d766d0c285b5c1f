#!/bin/sh
# Runs each row of the measurements once, from a build that checks each index, each sum and each access
# to memory as it runs. With a folder it proves the program as well, and builds it there: that is the one
# to measure with.
#
# The program stands in the folder bench. The gate leaves it out: its proof says nothing of what it
# measures, and costs as much as that of a library.
# Usage: checks/bench.sh [FOLDER], anywhere. RT names the command rt. Its last line counts the rows; with
# a folder it names the program. What was proved there is kept.
# Runs beside the gate.
set -eu
. "$(dirname "$0")/lib/edits"

# Copies the repository, with the program as a crate.
lay_out() {
    copy_sources
    add_crate bench ' may_wait=146: executor_core async_executor priority_executor sharded_executor async_utilities'
    cp "$top/bench/stdout" "$copy/crates/bench/stdout"
}

if [ $# = 1 ]; then
    rm -rf "$copy"
    trap - EXIT
    mkdir -p "$1/crates"
    copy=$(cd "$1" && pwd)
    find "$copy/crates" -mindepth 2 -maxdepth 2 ! -name out -exec rm -rf {} +
    lay_out
    cd "$copy/crates/bench"
    "$rt" run
    echo "$copy/crates/bench/out/bench"
    exit
fi

. "$top/checks/lib/builds"
lay_out
seconds=3600
try bench src/main.rt
while read -r row; do
    if grep -qxF "$row" "$copy/log"; then pass "$row"; else fail "bench does not print '$row'"; fi
done < "$top/bench/stdout"
[ "$failed" = 0 ] || cat "$copy/log"
count
