#!/bin/sh
# Lets the Nth request for memory of a program fail, for N = 1, 2, .. until none is refused.
#
# The program of the folder refusals makes its calls anew for each N, and prints which of them met the
# refusal: one call each time, no answer may be wrong, and in the end each call has to have met one. It
# is built once, from a build that checks each index, each sum and each access to memory as it runs, and
# is told on its standard input which request fails first (checks/lib/fail_nth.c). Told of none, it orders
# itself which requests fail, and says for how many ticks and runs there is room before and after runs
# that were refused, and how many requests 1,000 spawns make. Over each edit of checks/wrong_bodies that
# has the line 'program: refusals', it has to say that something is wrong.
#
# exsim is the program that the gate built, or is built by `rt run` if a source is newer. It answers
# `out of memory`: at its start with status 2 and nothing more, or at a spawn or when a ticker is made,
# after which it has to go on as if that step had not been asked for.
# Usage: checks/refusals.sh, anywhere. RT names the command rt. Its last line counts the runs and the edits.
set -eu
. "$(dirname "$0")/lib/edits"
. "$top/checks/lib/builds"
most=200

give_up() {
    fail "$@"
    count
    exit 1
}

# Lays out the program with the bodies of these edits, and what it is told for each, for none, and for
# the requests.
lay_out() {
    copy_sources
    add_crate refusals ': executor_core async_executor async_utilities priority_executor sharded_executor pools slab'
    mkdir "$copy/cases"
    python3 -B "$top/checks/lib/choose.py" program "$copy" "$@"
    number=0
    for edit in none "$@"; do
        echo "$number 0" > "$copy/cases/$(basename "$edit" .edit)"
        number=$((number + 1))
    done
    echo '0 1' > "$copy/cases/requests"
}

# What the program said, told of this case.
said() { awk -v head="== $1" '/^== / { is_it = $0 == head; next } is_it' "$copy/log"; }

# The calls that a line of the program gives this count.
calls() {
    printf '%s\n' "${line#refused: }" | sed 's/; wrong: 0$//; s/, /\n/g' | sed -n "s/ $1\$//p"
}

# Reads what the program said of a case, which has to end well.
read_case() {
    out=$(said "$1")
    printf '%s\n' "$out" | grep -q "^case=$1 run=ended status=0 " || give_up "refusals, $1: $out"
}

# Reads what the program said of its calls. It has to name one call where a request was refused, and else
# none.
read_calls() {
    line=$(printf '%s\n' "$out" | grep '^refused: .*; wrong: 0$') || give_up "refusals, $1: $out"
    is_refused=$(printf '%s\n' "$out" | grep -cx 'request refused' || :)
    call=$(calls 1)
    [ "$(printf '%s' "$call" | grep -c '')" = "$is_refused" ] || give_up "refusals, $1: $line"
}

refuse_requests() {
    met=
    read_case requests
    all=$out
    for n in $(seq 1 $most); do
        out=$(printf '%s\n' "$all" |
            awk -v head="request $n" '/^request [0-9]+$/ { is_it = $0 == head; next } is_it')
        read_calls "request $n"
        [ "$is_refused" = 1 ] || break
        pass "refusals, request $n: $call"
        met="$met
$call"
    done
    [ "$is_refused" = 0 ] || give_up "refusals has more than $most requests"
    [ "$passed" -gt 0 ] || give_up "no request of refusals is refused"
    [ "$(printf '%s\n' "$met" | sed 1d | sort -u)" = "$(calls 0 | sort -u)" ] ||
        give_up "not each call met a refusal: $met"
}

# What it says where it orders itself which requests fail.
order_requests() {
    read_case none
    read_calls none
    room=$(printf '%s\n' "$out" | grep '^room for ') || give_up "refusals takes no orders: $out"
    requests=$(printf '%s\n' "$out" | grep '^requests for memory: ') ||
        give_up "refusals counts no requests: $out"
    pass "refusals, by its orders: $room; $requests"
}

# Says whether the program finds something wrong over each of these edits, as it must.
judge() {
    for edit in "$@"; do
        edit=$(basename "$edit" .edit)
        if said "$edit" | grep -q '^refused: .*; wrong: [1-9][0-9]*$'; then
            pass "$edit: refusals finds something wrong, as it must"
        else
            fail "$edit: not refused by refusals"
        fi
    done
}

# Finds the program exsim, and what lets its requests fail. It may take memory only by what that counts.
find_exsim() {
    program=$top/crates/exsim/out/exsim
    if [ ! -x "$program" ] ||
        find "$top"/crates/*/src -name '*.rt' -newer "$program" | grep -q .; then
        (cd "$top/crates/exsim" && "$rt" run < /dev/null) > "$copy/log" 2>&1 ||
            give_up "exsim is not built:" "$copy/log"
    fi
    grep -aqw malloc "$program" || give_up "exsim does not call malloc"
    others='[a-z_]*calloc|reallocarray|aligned_alloc|[a-z_]*memalign|p?valloc|[a-z_]*strn?dup'
    others="$others|mmap(64)?|s?brk"
    others=$(grep -aowE "$others" "$program" | sort -u)
    [ -z "$others" ] || give_up "exsim takes memory by what is not counted: $others"
    "$kit/toolchain/bin/clang" --target=x86_64-unknown-linux-gnu -shared -fPIC \
        -O1 -nostdlib -fuse-ld=lld -o "$copy/fail_nth.so" "$top/checks/lib/fail_nth.c"
}

# Runs exsim with its Nth request refused, and keeps what it answered.
run_refused() {
    out=$(timeout 60 env LD_PRELOAD="$copy/fail_nth.so" FAIL_ALLOC="$n" "$program" \
        < "$copy/steps" 2>&1 3> "$copy/refused") && status=0 || status=$?
}
was_refused() { [ -s "$copy/refused" ]; }

# Runs exsim on the steps of this name, with each of its requests refused in turn.
refuse_steps() {
    whole=$("$program" < "$copy/steps")
    starts=0
    steps=0
    for n in $(seq 1 999); do
        run_refused
        was_refused || break
        case "$status $out" in
            "2 out of memory") starts=$((starts + 1)) ;;
            "0 "*)
                leave_refused_step "$1"
                steps=$((steps + 1))
                ;;
            *) give_up "exsim, $1, request $n, status $status: $out" ;;
        esac
        pass "exsim, $1, request $n: status $status"
    done
    ! was_refused || give_up "exsim has more than $n requests"
    [ "$status $out" = "0 $whole" ] || give_up "exsim, $1, none refused, status $status: $out"
    echo "exsim, refused at its start: $starts, at $1: $steps"
    [ "$starts" -gt 0 ] && [ "$steps" -gt 0 ] || give_up "not each place of exsim met a refusal"
}

# The one step that was refused is a spawn, or makes a ticker, and all others were answered as if it
# had not been asked for.
leave_refused_step() {
    place=$(printf '%s\n' "$out" | sed -n '/^out of memory$/=')
    case $(sed -n "${place}p" "$copy/steps") in
        spawn | tick | run) ;;
        *) give_up "exsim, $1, request $n: $out" ;;
    esac
    sed "${place}d" "$copy/steps" > "$copy/others"
    others=$("$program" < "$copy/others")
    [ "$(printf '%s\n' "$out" | sed "${place}d")" = "$others" ] ||
        give_up "exsim, $1, request $n: $out"
}

set -- $(edits_of wrong_bodies | xargs grep -lx 'program: refusals')
lay_out "$@"
seconds=60
try refusals src/main.rt --cases "$copy/cases"
refuse_requests
order_requests
judge "$@"
[ "$failed" = 0 ] || cat "$copy/log"

find_exsim
for step in spawn tick run; do
    printf 'show\n%s\nshow\n%s\nshow\n' "$step" "$step" > "$copy/steps"
    refuse_steps "a $step"
done
printf '%s\n' spawn spawn spawn spawn spawn tick run tick run show 'register 1' 'poll 1' 'search 1 9' \
    'register 3' 'poll 3' 'search 3 1' show 'fair 1' 'wake 0' 'pend 0' 'ready 1 5' 'pollhandle 1' \
    'pollhandle 3' 'cancel 2' 'detach 4' 'trytick' 'dropped 2' 'pend 3' 'wake 3' exchange notify \
    'poll 0' 'search 0 0' 'sleep 0' 'store 0' 'search 0 0' 'sleep 0' 'store 0' show spawn exchange \
    notify tick spawn 'poll 0' 'search 0 0' 'remove 0' 'store 0' 'ready 3 7' 'ready 5 7' show run \
    'poll 4' 'poll 2' 'search 2 0' 'sleep 2' 'yield 2' 'drop 2' 'store 2' spawn 'drophandle 6' \
    'unregister 1' 'drop 1' 'unregister 3' 'drop 3' 'ready 0 1' 'ready 4 1' spawn show close show \
    drain 'dropped 6' drain 'dropped 7' drain drain spawn tick show > "$copy/steps"
refuse_steps "steps of all kinds"
count
