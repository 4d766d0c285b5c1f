#!/bin/sh
# Writes down what threads did on a running executor, and replays it on the proved World.
#
# The edits of checks/recorder make a copy of the executor in which each step on what is shared is written
# down, with its answer and its call, in the order of tickets that are drawn under the lock of the step. The
# program checks/recorder/recorded takes random programs on one thread and on four, some that are the same
# each time, in which a thread halts at a named step or memory is refused, and each table of lines of the
# folder tests (checks/lib/tables.py). checks/lib/replay.py checks each log twice: exsim, from the sources as
# they stand, has to give each reply that the executor gave; and each call has to make the steps that it owes,
# in its order. A step of the world, or a reply of it, that occurs in no log fails the check. docs/REPLAY.md
# says what all that shows.
#
# Each edit of checks/wrong_bodies or checks/guards with a line 'replay: CHECK PROGRAM LINE' has to be refused
# by this check in this program at this line of its log. All are built together with the right bodies,
# unproved.
#
# Each execution of the right bodies that differs is drawn around its first difference.
#
# Runs beside the gate.
# Usage: checks/replay.sh [STORMS [SEED]], anywhere: so many programs on four threads, from this seed on. LOG
# names a file that gets the logs. PICTURES names a folder that gets the pictures, also one of the first
# execution of each wrong body that is refused; without it, a new folder has those of the right bodies. RT
# names the command rt. Its last line counts the executions and the edits.
set -eu
. "$(dirname "$0")/lib/edits"
. "$top/checks/lib/builds"
recorder=$top/checks/recorder
fixed=12
alone=10
at_once=4
storms=${1:-60}
seed=${2:-1}

# Adds the Rust files below a folder to another one.
add_sources() {
    (cd "$1" && find . -name '*.rs') | while read -r file; do
        mkdir -p "$(dirname "$2/$file")"
        cp "$1/$file" "$2/${file%.rs}.rt"
    done
}

# Makes the program that is recorded a crate of the copy, over the recorder, with the bodies of these edits.
lay_out() {
    copy_sources
    mkdir "$copy/cases"
    program=$copy/crates/recorded/src
    for crate in executor_core recorded; do
        add_sources "$recorder/$crate" "$copy/crates/$crate/src"
    done
    add_sources "$top/tests/support/running" "$program/support"
    # What shards do is no step of a world.
    rm "$program/support/shards.rt" "$program/support/shard_trial.rt"
    (cd "$program/support" && ls | sed 's/\(.*\)\.rt/pub mod \1;/') > "$program/support.rt"
    python3 -B "$top/checks/lib/tables.py" "$top/tests" "$program" > "$copy/tables"
    echo 'recorded: executor_core async_executor' >> "$copy/crates.txt"
    for edit in "$recorder"/*/*.edit; do
        add_edit "$edit" "$copy"
    done
    python3 -B "$top/checks/lib/choose.py" program "$copy" "$@"
    "$kit/toolchain/bin/clang" --target=x86_64-unknown-linux-gnu -O1 -fPIC -c \
        -o "$copy/recorder.o" "$recorder/recorder.c"
    number=0
    for edit in none "$@"; do
        echo "$number 0" > "$copy/cases/$(basename "$edit" .edit)"
        [ "$edit" = none ] || field "$edit" replay | sed "s/^\([a-z]*\) \([^ ]*\) .*/\1:$number.\2/"
        number=$((number + 1))
    done > "$copy/names"
}

# Has the world take the steps of each execution. It is that of the repository, without the recorder: the
# program that the gate has built or, without a gate, one that is built here.
ask_world() {
    exsim=${GATE:+$GATE/crates/exsim/out/exsim}
    [ -z "$exsim" ] || wait_for exsim
    if [ -x "$exsim" ]; then
        for lines in "$copy/executions"/*; do
            echo "== ${lines##*/}"
            "$exsim" < "$lines"
        done > "$copy/log"
    else
        # No wrong body is chosen, and no request refused: what each program reads first (chosen.c).
        sed -i '1i 0 0' "$copy/executions"/*
        restore_sources executor_core
        try exsim src/main.rt --cases "$copy/executions"
    fi
}

# Takes the programs, and replays their logs. What is said of each execution stands in $copy/said.
replay() {
    exec 9> "$copy/recorded"
    try recorded src/main.rt --link "$copy/recorder.o" --cases "$copy/cases" \
        --arg $alone --arg $at_once --arg "$storms" --arg "$seed"
    exec 9>&-
    mv "$copy/log" "$copy/programs"
    [ -z "${LOG:-}" ] || cp "$copy/recorded" "$LOG"
    python3 -B "$top/checks/lib/replay.py" lines "$copy/recorded" "$copy/executions" $(cat "$copy/names")
    ask_world
    python3 -B "$top/checks/lib/replay.py" compare "$copy/executions" "$copy/log" > "$copy/said"
}

# Draws the executions that differ, whose names begin so, into a folder, and prints the names of the files.
draw() {
    mkdir -p "$2"
    python3 -B "$top/checks/lib/portray.py" differences "$copy/recorded" "$copy/said" "$2" "$1"
}

# Says whether both checks pass each execution of the right bodies, as they must, and whether each step of the
# world has each of its replies in one of them.
judge_right() {
    plays=$(sed -n 's/^0\.table_\([0-9]*\): .*/\1/p' "$copy/said" | sort -u | wc -l)
    tables=$(sed -n 's/^0\.table_\([0-9]*\)[0-9]: .*/\1/p' "$copy/said" | sort -u | wc -l)
    executions=$((fixed + 2 * alone + 4 * at_once + storms + plays))
    right=$(grep -cE '^0\.[a-z]+_[0-9]+: [0-9]+ steps$' "$copy/said" || :)
    passed=$((passed + right))
    if [ "$right" != $executions ] || [ "$tables" != "$(wc -l < "$copy/tables")" ]; then
        fail "$((executions - right)) of $executions executions, with $tables tables, are refused or missing:"
        awk '/^[0-9]+\./ { is_right = /^0\./ && !/: [0-9]+ steps$/ } is_right' "$copy/said"
        # Which tests the refused tables are of.
        awk 'NR == FNR { test[$1] = $2; next }
            sub(/^0\.table_/, "") && !/: [0-9]+ steps$/ { print "table_" $1, test[int($1 / 10)] }' \
            "$copy/tables" "$copy/said"
        draw 0. "${PICTURES:-$(mktemp -d)}"
        grep -A 5 '^== none$' "$copy/programs" || cat "$copy/programs"
    fi
    grep -E '^ *[0-9,]+ ' "$copy/said" || :
    never=$(grep '^never: ' "$copy/said" || :)
    [ -z "$never" ] || fail "$never"
    echo "$right executions, $plays of them of $tables tables, the storms from seed $seed on"
}

# Says whether each of these edits is refused by its check, in its program, at its line, as it must be.
judge() {
    number=0
    for edit in "$@"; do
        number=$((number + 1))
        name=$(basename "$edit" .edit)
        field "$edit" replay > "$copy/wanted"
        read -r check program line < "$copy/wanted"
        if grep -q "^$number\.$program: $check, line $line: " "$copy/said"; then
            pass "$name: $check, in $program at line $line, as it must"
        else
            fail "$name: not refused by $check in $program at line $line"
            grep "^$number\.[a-z_0-9]*: [a-z]*, " "$copy/said" | head -n 3 || :
        fi
    done
}

set -- $({ edits_of wrong_bodies && edits_of guards; } | xargs grep -l '^replay: ')
lay_out "$@"
# The most that a run of all these programs may take, and one of exsim.
seconds=$((1200 + storms / 5))
replay
[ -z "${PICTURES:-}" ] || draw '' "$PICTURES"
judge_right
judge "$@"
count
