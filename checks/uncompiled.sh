#!/bin/sh
# Misuse that must not compile. A file NAME.rs is a crate above those that its lines 'use' name:
# each line that ends in '//~ ERROR' has to be refused with that error, and no other line. A file
# NAME.edit changes a crate of the repository, which then has to be refused with the error that it
# names, in the function that it changes, and nowhere else.
#
# A check reports the errors of all functions together, up to some number. So the marked lines of a
# file, each a function, are tried together, and so are edits that change the bodies of different
# functions and name one error. What is judged is taken away, and the rest is tried again. An edit that
# changes more than a body is tried alone. `--only=` proves nothing: these errors come before any proof.
# Usage: checks/uncompiled.sh, anywhere. RT names the command rt. Its last line counts the files.
# Runs beside the gate.
set -eu
. "$(dirname "$0")/lib/edits"
. "$top/checks/lib/built"
copy_sources
mkdir -p "$copy/crates/misuse/src"
crates=$copy/crates.txt

# Reads a crate of the copy, and keeps its errors as 'FILE LINE ERROR'. Where some errors are not
# reported, the last line may have more of them, and is left out where it is not the only one.
find_errors() {
    words "$1" > "$copy/words"
    (cd "$copy/crates/$1" && xargs -d '\n' "$kit/bin/rattle" check --only= < "$copy/words") \
        > "$copy/log" 2>&1 || :
    sed -nE 's/^([^ :]*):([0-9]*):[0-9]*: error(\[([a-z0-9-]*)\])?.*/\1 \2 \4/p' "$copy/log" |
        sort -u -k1,1 -k2,2n -k3 > "$copy/found"
    is_cut=$(grep -cE ' and [0-9]+ more errors?$' "$copy/log") || return 0
    awk '
        { place[NR] = $1 " " $2; line[NR] = $0 }
        END {
            for (n = 1; n <= NR; n++)
                if (place[n] != place[NR] || place[1] == place[NR]) print line[n]
        }' "$copy/found" > "$copy/whole"
    mv "$copy/whole" "$copy/found"
}

# Keeps the lines of the first file that the second lacks, if there are any.
lacks() {
    grep -vxF -f "$2" "$1" > "$copy/lacking" || :
    [ -s "$copy/lacking" ]
}

try_lines() {
    name=$(basename "$1")
    misuse=$copy/crates/misuse/src/lib.rt
    cp "$1" "$misuse"
    libraries=$(sed -n 's/^use \([a-z_]*\)::.*/\1/p' "$1" | grep -vx std | sort -u | paste -sd' ')
    { cat "$top/crates.txt" && echo "misuse: $libraries"; } > "$crates"
    while grep -q '//~ ' "$misuse"; do
        find_errors misuse
        awk '/\/\/~ / { print "src/lib.rt", NR, $NF }' "$misuse" > "$copy/wanted"
        if lacks "$copy/found" "$copy/wanted"; then
            fail "$name: refused otherwise than marked:" "$copy/lacking"
            return
        elif [ ! -s "$copy/found" ]; then
            fail "$name: not refused as marked:" "$copy/log"
            return
        fi
        awk 'NR == FNR { judged[$2]; next } FNR in judged { $0 = "" } { print }' \
            "$copy/found" "$misuse" > "$copy/rest"
        mv "$copy/rest" "$misuse"
    done
    pass "$name: $(grep -c '//~ ' "$1") lines refused, as they must be"
}

# Prints for each line of a file the number of the function that it is a part of, and whether of its
# head or its body; or 'no function'.
functions() { python3 -B "$top/checks/lib/edits.py" functions "$1"; }

# Plans the edits of a crate, as lines 'PLACE ERROR EDIT beside|alone' of the file left.
plan_edits() {
    edits_of uncompiled | xargs grep -lx "crate: $1" |
        xargs python3 -B "$top/checks/lib/edits.py" places "$top" > "$copy/planned"
    grep -E ' (beside|alone)$' "$copy/planned" > "$copy/left" || :
    grep -vE ' (beside|alone)$' "$copy/planned" > "$copy/unapplied" || :
    while read -r why; do
        fail "it cannot be applied: $why"
    done < "$copy/unapplied"
}

# Applies edits that are left to a crate of the copy: one that is tried alone, or those of different
# functions that name one error, since an error of one kind may keep those of another from being found.
# If an edit's new text is the old text of another, that one waits.
apply_round() {
    restore_sources "$1"
    awk '
        NR == 1 { error = $2 }
        NR > 1 && ($4 == "alone" || $2 != error) || $1 in taken { next }
        { taken[$1]; print }
        $4 == "alone" { exit }' "$copy/left" > "$copy/round"
    : > "$copy/tried"
    while read -r place error edit way; do
        ! add_edit "$edit" "$copy" 2> "$copy/log" ||
            echo "$place $error $edit $way" >> "$copy/tried"
    done < "$copy/round"
}

# Judges the edits that were applied, and takes them from the file left. What is not refused is
# tried again where the list of errors was cut.
judge_round() {
    for file in $(cut -d' ' -f1 "$copy/found" | sort -u); do
        functions "$copy/crates/$1/$file" 2>&1 | awk -v file="$file" '{ print file, NR, $1 }'
    done > "$copy/numbers"
    awk 'NR == FNR { number[$1, $2] = $3; next } { print $1 ":" number[$1, $2], $3 }' \
        "$copy/numbers" "$copy/found" | sort -u > "$copy/refused"
    awk 'NR == FNR { refused[$0]; next } ($1 " " $2) in refused' \
        "$copy/refused" "$copy/tried" > "$copy/judged"
    while read -r _ _ edit _; do
        pass "${edit##*/}: refused, as it must be"
    done < "$copy/judged"
    cut -d' ' -f1,2 "$copy/tried" > "$copy/wanted"
    ! lacks "$copy/refused" "$copy/wanted" ||
        fail "$1: of these errors, some are not what an edit names:" "$copy/found"
    if [ "$is_cut" = 0 ] || [ ! -s "$copy/judged" ]; then
        lacks "$copy/tried" "$copy/judged" || :
        while read -r _ error edit _; do
            fail "${edit##*/}: not refused as $error:" "$copy/log"
        done < "$copy/lacking"
        cp "$copy/tried" "$copy/judged"
    fi
    lacks "$copy/left" "$copy/judged" || :
    mv "$copy/lacking" "$copy/left"
}

for file in "$top"/checks/uncompiled/*.rs; do
    try_lines "$file"
done
for crate in $(edits_of uncompiled | xargs sed -n 's/^crate: //p' | sort -u); do
    plan_edits "$crate"
    while [ -s "$copy/left" ]; do
        apply_round "$crate"
        find_errors "$crate"
        judge_round "$crate"
    done
    restore_sources "$crate"
done
count
