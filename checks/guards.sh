#!/bin/sh
# Guards: wrong bodies that the prover has to refuse, each by a goal of the function that it
# changes. A function is proved over the contracts alone of those that it calls, so wrong bodies of
# different functions of a crate are tried in one check, and nothing else is proved there.
#
# A guard is a file of checks/guards with the lines 'crate: NAME', 'function: PATH' as a check
# prints it below the crate, 'file: PATH', 'old: TEXT' and 'new: TEXT'. It changes the body of that
# function and nothing else. checks/lib/guards.py lays out those of one check, a round.
# Usage: checks/guards.sh [CRATE [FUNCTION..]], anywhere: all guards, or those of a crate, or those
# of some functions of it. RT names the command rt. Its last line counts the guards.
# Runs beside the gate.
set -eu
. "$(dirname "$0")/lib/edits"
. "$top/checks/lib/built"
checks=$top/checks

# The guards that are asked for.
asked() {
    for guard in $(edits_of guards); do
        [ $# = 0 ] || [ "$(field "$guard" crate)" = "$1" ] || continue
        [ $# -le 1 ] || (shift && printf '%s\n' "$@") |
            grep -qFx "$(field "$guard" function)" || continue
        echo "$guard"
    done
}

# Lays out guards of this crate, those that the file left lists, in the room, and tries them. What
# was tried, as lines 'FUNCTION GUARD', is taken from that file.
try_round() {
    rm -rf "$room/crates/$1"
    mkdir -p "$room/crates/$1"
    (cd "$top/crates/$1" && tar cf - --exclude=./out .) | (cd "$room/crates/$1" && tar xf -)
    if ! xargs python3 -B "$checks/lib/guards.py" "$room" "$1" < "$room/left" > "$room/round"; then
        fail "guards of $1 that cannot be tried, so that none of it is:" "$room/round"
        : > "$room/left"
        return
    fi
    (cd "$room/crates/$1" &&
        awk '{ print "--only"; print $1 }' "$room/round" | cat "$room/words" - |
        xargs -d '\n' "$kit/bin/rattle" check) > "$room/log" 2>&1 || :
    (cd "$room/crates/$1" && awk -v crate="$1" -f "$checks/lib/refused.awk" "$room/log") > "$room/found"
    # Who waits for the proof of a function that another guard of the round changes is tried again.
    awk '$1 == "waiting" { sub(/:$/, "", $2); print $2 }' "$room/found" > "$room/waiting"
    awk 'NR == FNR { waits[$1]; next } !($1 in waits)' "$room/waiting" "$room/round" > "$room/judged"
    [ -s "$room/judged" ] || cp "$room/round" "$room/judged"
    while read -r function guard; do
        judge "$function" "$(basename "$guard")"
    done < "$room/judged"
    grep -qx read "$room/found" || cat "$room/log"
    cut -d' ' -f2 "$room/judged" | grep -vxF -f - "$room/left" > "$room/rest" || :
    mv "$room/rest" "$room/left"
}

# Says whether a function is refused as its guard asks.
judge() {
    awk -v name="$1" '$2 == name || $2 == name ":"' "$room/found" > "$room/own"
    if ! grep -qx read "$room/found"; then
        fail "$2: $1 was not tried, since the round cannot be read:"
    elif grep -q '^refused ' "$room/own"; then
        pass "$2: $1 is refused, as it must be: $(cut -d' ' -f3- "$room/own")"
    elif [ -s "$room/own" ]; then
        fail "$2: $1 is not refused by a goal of its own:" "$room/own"
    else
        fail "$2: $1 is not refused"
    fi
}

# Writes the words of a check of this crate into a file of the room. Who asks first writes them.
read_words() {
    if mkdir "$copy/$1.asked" 2> /dev/null; then
        words "$1" > "$copy/$1.written" || :
        mv "$copy/$1.written" "$copy/$1.words"
    fi
    until [ -f "$copy/$1.words" ]; do sleep 1; done
    cp "$copy/$1.words" "$room/words"
}

# Tries the guards of the parts that are not taken yet, and leaves the counts there.
try_parts() {
    room=$1
    mkdir "$room"
    while read -r part; do
        mv "$copy/parts/$part" "$room/left" 2> /dev/null || continue
        crate=${part%.*}
        read_words "$crate"
        while [ -s "$room/left" ]; do
            start=$(date +%s)
            try_round "$crate"
            echo "$crate: $(grep -c . "$room/round") guards in $(($(date +%s) - start)) s"
        done
    done < "$copy/order"
    echo "$passed $failed" > "$room/counts"
}

mkdir "$copy/parts"
for guard in $(asked "$@"); do
    echo "$guard" >> "$copy/$(field "$guard" crate).guards"
done
# At most so many in a part, so that both lanes have guards to try until the end. Crates that the gate proves
# first come first.
for crate in $(sed -n 's/^\([a-z_]*\)[ :].*/\1/p' "$crates"; cd "$copy" && ls | sed -n 's/\.guards$//p'); do
    [ -f "$copy/$crate.guards" ] || continue
    (cd "$copy/parts" && split -l 90 "$copy/$crate.guards" "$crate." && ls "$crate".*)
    rm "$copy/$crate.guards"
done > "$copy/order"
for lane in one two; do
    try_parts "$copy/$lane" &
done
wait
for lane in one two; do
    more_passed=0 more_failed=1
    [ ! -f "$copy/$lane/counts" ] || read -r more_passed more_failed < "$copy/$lane/counts"
    passed=$((passed + more_passed))
    failed=$((failed + more_failed))
done
count
