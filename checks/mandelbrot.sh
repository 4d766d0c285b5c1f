#!/bin/sh
# Runs the program mandelbrot: its bytes are the same on 1, 2 and 4 threads, and those of a picture that
# python computes by itself; bad arguments, a standard output that is closed or full, and refused memory
# each have a message and an exit status.
#
# The program is the one that the gate built, or is built by `rt run` if a source is newer; PROGRAM names
# another one. The library of fail_nth.c refuses the Nth request for memory, for N = 1, 2, .. until none is
# refused: the program has to end, to say so, and to print nothing that is not of its picture.
# Usage: checks/mandelbrot.sh, anywhere. RT names the command rt. Its last line counts the comparisons.
set -u
rt=${RT:-rt}
top=$(cd "$(dirname "$0")/.." && pwd)
work=$(mktemp -d)
trap 'rm -rf "$work"' EXIT
trap 'exit 1' INT TERM
passed=0
failed=0

# Counts a comparison: its name, and the command that says whether it holds.
compare() {
    name=$1
    shift
    if "$@"; then
        passed=$((passed + 1))
    else
        echo "$name: not so"
        failed=$((failed + 1))
    fi
}

# Whether the program ends with this status and this word in its message, and prints nothing else there.
ends() {
    wanted=$1
    word=$2
    shift 2
    timeout 20 "$program" "$@" > "$work/out" 2> "$work/message"
    status=$?
    [ "$status" = "$wanted" ] && grep -q -- "$word" "$work/message" ||
        { echo "mandelbrot $*: status $status: $(cat "$work/message")" && false; }
}

# The same with a standard output that cannot be written.
ends_full() {
    timeout 20 "$program" "$@" > /dev/full 2> "$work/message"
    [ $? = 3 ] && grep -q 'standard output' "$work/message"
}
ends_shut() {
    timeout 20 "$program" "$@" 2> "$work/message" >&-
    [ $? = 3 ] && grep -q 'standard output' "$work/message"
}
ends_unread() {
    { timeout 20 "$program" "$@" 2> "$work/message"; echo $? > "$work/status"; } | head -c 20 > "$work/out"
    [ "$(cat "$work/status")" = 3 ] && grep -q 'standard output' "$work/message"
}

is_picture() {
    "$program" "$@" > "$work/picture" && cmp "$work/picture" "$work/wanted"
}

# Whether the program ended as it should if a request was refused: it says so, after a part of its picture
# or all of it, or it got by without and printed all. A thread that got no memory is one that cannot be had.
is_refused_well() {
    case $1 in
        0) cmp "$work/part" "$work/wanted" ;;
        4) grep -q 'out of memory' "$work/message" && is_beginning ;;
        5) grep -q 'cannot start a thread' "$work/message" && is_beginning ;;
        *) false ;;
    esac
}
is_beginning() { head -c "$(wc -c < "$work/part")" "$work/wanted" | cmp - "$work/part"; }

program=${PROGRAM:-$top/crates/mandelbrot/out/mandelbrot}
if [ -z "${PROGRAM:-}" ] && { [ ! -x "$program" ] ||
    find "$top"/crates/*/src -name '*.rt' -newer "$program" | grep -q .; }; then
    (cd "$top/crates/mandelbrot" && "$rt" run -- 6 4) > "$work/log" 2>&1 ||
        { cat "$work/log"; echo "0 passed, 1 failed"; exit 1; }
fi

for size in '64 48' '31 17' '1 1' '5 300' '300 5'; do
    set -- $size
    python3 -B "$top/checks/lib/mandelbrot.py" "$@" > "$work/wanted"
    for threads in 1 2 4; do
        compare "$1 by $2 on $threads threads as python computes it" is_picture "$@" -j "$threads"
    done
done
"$program" 300 200 -j 1 > "$work/wanted"
for threads in 2 3 4 64; do
    compare "300 by 200 on $threads threads as on one" is_picture 300 200 -j "$threads"
done
compare "300 by 200 without -j" is_picture 300 200

compare "no arguments" ends 2 missing
compare "no height" ends 2 missing 6
for size in '0 4' '6 0' '6 -4' '6 4.5' '6 x' '6 16385' '99999999999999999999 4' '16385 4'; do
    compare "the size $size" ends 2 'from 1 to 16384' $size
done
compare "no thread" ends 2 'from 1 to 64' 6 4 -j 0
compare "threads that are no number" ends 2 'from 1 to 64' 6 4 -j x
compare "too many threads" ends 2 'from 1 to 64' 6 4 -j 65
compare "no number of threads" ends 2 'from 1 to 64' 6 4 -j
compare "an argument too many" ends 2 'no option' 6 4 5
compare "an argument that is not text" ends 2 'not text' 6 "$(printf '\377')"
compare "progress" ends 0 '^4 of 4 rows$' 6 4 --progress
"$program" 6 4 2> "$work/message" > "$work/out"
compare "no progress where standard error is no terminal" [ ! -s "$work/message" ]

compare "a full standard output" ends_full 64 48
compare "a closed standard output" ends_shut 64 48
compare "a pipe that nobody reads" ends_unread 1000 1000

"$(dirname "$("$rt" doc)")/toolchain/bin/clang" --target=x86_64-unknown-linux-gnu -shared -fPIC \
    -O1 -nostdlib -fuse-ld=lld -o "$work/fail_nth.so" "$top/checks/lib/fail_nth.c"
for threads in 1 2; do
    "$program" 8 20 > "$work/wanted"
    n=1
    refused=0
    while [ "$n" -lt 400 ]; do
        timeout 20 env LD_PRELOAD="$work/fail_nth.so" FAIL_ALLOC="$n" "$program" 8 20 -j "$threads" \
            > "$work/part" 2> "$work/message" 3> "$work/refused"
        status=$?
        [ -s "$work/refused" ] || break
        compare "request $n refused on $threads threads, status $status" is_refused_well "$status"
        [ "$status" = 4 ] && refused=$((refused + 1))
        n=$((n + 1))
    done
    compare "requests on $threads threads end" [ "$n" -lt 400 ]
    compare "refused requests on $threads threads are told of" [ "$refused" -gt 5 ]
    echo "$((n - 1)) requests on $threads threads, of which $refused end the program"
done
echo "$passed passed, $failed failed"
[ "$failed" = 0 ] && [ "$passed" != 0 ]
