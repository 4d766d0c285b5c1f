#!/bin/sh
# Compares the program digests with sha256sum, byte for byte: what both write on standard output and on
# standard error, and their exit status.
#
# Both are run under the name sha256sum, since a message begins with the program's name. They get 2,000
# small files, names of all kinds, files that cannot be read, standard input, and a sparse file of 1 GB,
# on 1, 2 and 4 threads. Then digests gets what is its own: a long file that a short one need not wait
# for, bad arguments, an output that takes no more, and requests for memory that are refused; and it is
# measured how much memory it takes at most.
#
# The program is the one that the gate built, or is built by `rt run` if a source is newer; PROGRAM names
# another one. The library of fail_nth.c refuses the Nth request for memory, for N = 1, 2, .. until none is
# refused. The edits of checks/wrong_bodies with the line 'program: digests' are built together with the
# right bodies, unproved, and each is seen in what the program reads and in what it says of its progress.
# Usage: checks/digests.sh, anywhere. RT names the command rt. Its last line counts the comparisons.
set -eu
. "$(dirname "$0")/lib/edits"
work=$copy/work
mkdir "$work"
export LC_ALL=C.UTF-8

program=${PROGRAM:-$top/crates/digests/out/digests}
if [ -z "${PROGRAM:-}" ] && { [ ! -x "$program" ] ||
    find "$top"/crates/*/src -name '*.rt' -newer "$program" | grep -q .; }; then
    (cd "$top/crates/digests" && "$rt" run < /dev/null) > "$work/log" 2>&1 ||
        { cat "$work/log"; echo "0 passed, 1 failed"; exit 1; }
fi
mkdir "$work/ours" "$work/theirs" "$work/files"
ln -s "$program" "$work/ours/sha256sum"
ln -s "$(command -v sha256sum)" "$work/theirs/sha256sum"
cd "$work/files"

# Runs one of the two, ours or theirs, on the standard input that the variable input names, and keeps what
# it wrote.
run() {
    whose=$1
    shift
    (
        if [ "$input" = closed ]; then exec <&-; else exec < "$input"; fi
        exec env PATH="$work/$whose:$PATH" sha256sum "$@"
    ) > "$work/$whose.out" 2> "$work/$whose.err" &&
        echo 0 > "$work/$whose.status" || echo $? > "$work/$whose.status"
}

# Compares both on these files, on each number of threads.
compare() {
    what=$1
    shift
    run theirs -- "$@"
    for threads in 1 2 4; do
        run ours -j "$threads" -- "$@"
        if cmp -s "$work/ours.out" "$work/theirs.out" && cmp -s "$work/ours.err" "$work/theirs.err" &&
            cmp -s "$work/ours.status" "$work/theirs.status"; then
            pass "$what, -j $threads: the same"
        else
            fail "$what, -j $threads: not the same"
            diff "$work/ours.out" "$work/theirs.out" | head -n 5 || :
            diff "$work/ours.err" "$work/theirs.err" | head -n 5 || :
        fi
    done
}

echo 'what stands on standard input' > "$work/text"
input=$work/text

mkdir small
seq 2000 | (cd small && split -l 1 -a 4 - file)
compare "2,000 small files" small/*

: > empty
echo one > one
echo two > 'a b'
echo three > 'back\slash'
echo four > 'line
feed'
printf 'five' > "$(printf 'carriage\rreturn')"
echo six > "it's"
echo seven > 'é'
mkdir folder
compare "files whose names have escapes" empty one 'a b' 'back\slash' 'line
feed' "$(printf 'carriage\rreturn')" "it's" 'é' empty one
compare "files that cannot be read" one absent empty folder folder/absent one/absent /proc/self/mem two
compare "an absent file of each kind of name" '' 'no such' 'back\absent' 'line
absent' "$(printf 'tab\tabsent')" "$(printf 'bell\001\007 end\n\047\n')" "isn't" "isn't \"so\"" "isn't#" '#first' \
    'not#first' '~first' 'not~first' '{' '}' '{}' 'a{' "'" "#'" "a'b
c" 'a=b' 'a:b' "a:'b" 'a*' 'a?' 'a[' 'a]' 'a^' 'a|b' 'a&b' 'a;b' 'a<b' 'a>b' 'a(b' 'a)b' 'a$b' 'a`b' \
    'a!b' 'a"b' 'a,b' 'a%b' 'a@b' 'a+b' 'a-b' 'é' "é'" -- -j --progress "$(printf '\177')" "$(printf '\302\205')" \
    "$(printf 'a\342\200\250')" "$(printf 'a\342\200\251\342\200\213')" "$(printf '\360\237\230\200')" \
    "$(seq -s / 2000)"
if [ "$(id -u)" != 0 ]; then
    echo hidden > hidden
    chmod 000 hidden
    compare "a file without a right to read it" one hidden one
fi

compare "standard input" -
compare "no file"
compare "standard input between files" one - empty
compare "standard input twice" - one -
input=$work/files/folder
compare "a folder on standard input" - one
input=closed
compare "a closed standard input" one - empty
compare "a closed standard input and no file"
compare "a closed standard input that is not read" one empty
input=$work/text

truncate -s 1G large
compare "a sparse file of 1 GB before small ones" large small/fileaaa?

# Whether one of the two reads the pipe short to its end while the pipe long has none yet: who writes long
# waits for that. The seconds are the most that it may take.
takes_turns() {
    whose=$1 seconds=$2
    shift 2
    mkfifo long short taken
    timeout 100 sh -c '{ head -c 64M /dev/zero; cat taken; } > long' &
    run "$whose" "$@" long short &
    timeout "$seconds" sh -c 'head -c 4M /dev/zero > short' && turns=yes || turns=no
    timeout 100 sh -c ': > taken' || :
    # One that has not come to short yet waits for somebody who writes it.
    [ "$turns" = yes ] || timeout 10 sh -c ': > short' || :
    wait
    rm long short taken
    [ "$turns" = yes ] && [ "$(cat "$work/$whose.status")" = 0 ]
}
input=$work/text
if takes_turns ours 60 -j 1 --; then
    pass "a short file is digested while a long one has no end, -j 1"
else
    fail "a short file waits for the end of a long one, -j 1"
fi
if ! takes_turns theirs 1 --; then
    pass "sha256sum, which digests one file after another, is refused by that"
else
    fail "sha256sum, which digests one file after another, is not refused by that"
fi

# Opens these four pipes for who reads them, and runs a command, the first word, while they have nothing.
# The last of them is its file 7. Once they are open, there are new ones of their names, for who reads next:
# it may come before the command has ended.
with_open() {
    command=$1
    shift
    timeout 1800 sh -c 'exec 4> "$2" 5> "$3" 6> "$4" 7> "$5" && command=$1 && shift && rm "$@" && mkfifo "$@" &&
        eval "$command"' sh "$command" "$@"
}

# Whether the last of four pipes is read beside the others. The first word is for how many seconds 4 MiB
# may wait to be read: a pipe has room for less.
reads_last() {
    seconds=$1
    shift
    with_open "timeout $seconds head -c 4M /dev/zero >&7" "$@"
}

# Which of four files three threads read is up to them, but there is no fourth thread.
mkfifo a b c d
for threads in 1 3 4; do
    run ours -j "$threads" -- a b c d &
    case $threads in
        1) reads_last 1 a b c d && read=yes || read=no ;;
        3) with_open 'ls /proc/$(pgrep -f "[s]ha256sum -j 3 -- a b c d")/task | wc -l > count' a b c d
            read=$(cat count) ;;
        4) reads_last 60 a b c d && read=yes || read=no ;;
    esac
    wait
    case "$threads $read" in
        '1 no') pass "one thread reads one file at a time" ;;
        '3 3') pass "three threads are all that read" ;;
        '4 yes') pass "four threads read four files at a time" ;;
        *) fail "with $threads threads: $read" ;;
    esac
done
rm a b c d

# Runs ours alone, and compares what came with this status, this standard error and this output.
expect() {
    what=$1 status=$2 err=$3 out=$4
    if [ "$(cat "$work/ours.status")" = "$status" ] && [ "$(cat "$work/ours.err")" = "$err" ] &&
        [ "$(cat "$work/ours.out")" = "$out" ]; then
        pass "$what: status $status, '$err'"
    else
        fail "$what: status $(cat "$work/ours.status"), '$(cat "$work/ours.err")', not status $status, '$err'"
    fi
}

# Bad arguments: the status, the message, and the arguments.
refuse() {
    message=$1
    shift
    run ours "$@"
    expect "$*" 2 "sha256sum: $message" ''
}
refuse '-j 0: no number from 1 to 256' -j 0 one
refuse '-j 257: no number from 1 to 256' one -j 257
refuse '-j two: no number from 1 to 256' -jtwo one
refuse "-j 'a b': no number from 1 to 256" -j 'a b' one
refuse "-j '': no number from 1 to 256" -j '' one
refuse '-j: a number from 1 to 256 is missing' one -j
refuse 'unknown option --tag' --tag one
refuse 'unknown option -z' one -z

line=$(sha256sum one)
run ours "$(printf 'a\303b\nc\377')" one
expect 'a name that is not UTF-8' 1 "sha256sum: 'a'\$'\303''b'\$'\n''c'\$'\377': the name is not UTF-8" "$line"
run ours one -j4
expect 'an option behind a file' 0 '' "$line"
run ours --progress one
expect 'progress' 0 '1 of 1 files, 0 MiB' "$line"
head -c 3M /dev/zero > three
run ours --progress one three
if [ "$(tail -n 1 "$work/ours.err")" = '2 of 2 files, 3 MiB' ]; then
    pass 'progress counts what is read'
else
    fail "progress of 3 MiB: $(tail -n 1 "$work/ours.err")"
fi
run ours --help absent
expect 'help, and nothing else' 0 '' 'usage: digests [-j N] [--progress] [--] [FILE..]
Prints the SHA-256 digest of each FILE, in their order. - is standard input, and so is no FILE.
  -j N         with N threads, 1 to 256; as many as there are processors if it is left out
  --progress   show progress on standard error, even if that is no terminal
  --help       show this'

# A standard output that takes no more.
env PATH="$work/ours:$PATH" sha256sum one 2> "$work/ours.err" >&- && echo 0 > "$work/ours.status" ||
    echo $? > "$work/ours.status"
: > "$work/ours.out"
expect 'a closed standard output' 3 'sha256sum: write error: Bad file descriptor' ''
env PATH="$work/ours:$PATH" sha256sum one 2> "$work/ours.err" > /dev/full &&
    echo 0 > "$work/ours.status" || echo $? > "$work/ours.status"
expect 'a full standard output' 3 'sha256sum: write error: No space left on device' ''
mkfifo pipe
: < pipe &
{
    exec 3> pipe
    wait
    env PATH="$work/ours:$PATH" sha256sum one 2> "$work/ours.err" >&3 &&
        echo 0 > "$work/ours.status" || echo $? > "$work/ours.status"
    exec 3>&-
}
expect 'a pipe that nobody reads' 3 'sha256sum: write error: Broken pipe' ''

# Each request for memory is refused in turn. What was written before is right.
"$(dirname "$("$rt" doc)")/toolchain/bin/clang" --target=x86_64-unknown-linux-gnu -shared -fPIC \
    -O1 -nostdlib -fuse-ld=lld -o "$work/fail_nth.so" "$top/checks/lib/fail_nth.c"
sha256sum one empty 'a b' > "$work/whole"
for n in $(seq 1 999); do
    timeout 60 env PATH="$work/ours:$PATH" LD_PRELOAD="$work/fail_nth.so" FAIL_ALLOC="$n" \
        sha256sum -j 2 one empty 'a b' 3> "$work/refused" > "$work/ours.out" 2> "$work/ours.err" &&
        status=0 || status=$?
    [ -s "$work/refused" ] || break
    case "$status $(cat "$work/ours.err")" in
        "0 ") said=$(wc -c < "$work/whole") ;;
        "4 sha256sum: memory exhausted" | "5 sha256sum: cannot start a thread")
            said=$(wc -c < "$work/ours.out")
            ;;
        *) said=none ;;
    esac
    if [ "$said" != none ] && head -c "$said" "$work/whole" | cmp -s - "$work/ours.out"; then
        pass "request $n for memory: status $status, '$(cat "$work/ours.err")'"
    else
        fail "request $n for memory: status $status, '$(cat "$work/ours.err")'"
    fi
done

# How much memory it has taken at most, in KiB, on four threads, once it has written the lines of these
# files and waits for standard input.
most_memory() {
    timeout 100 python3 -B -c 'import re, subprocess, sys
run = subprocess.Popen(sys.argv[1:] + ["-"], stdin=subprocess.PIPE, stdout=subprocess.PIPE)
for _ in sys.argv[4:]:
    run.stdout.readline()
print(re.search(r"VmHWM:\s*(\d+)", open(f"/proc/{run.pid}/status").read())[1])
run.communicate()' "$program" -j 4 "$@"
}
truncate -s 100M large
for files in one 'small/*' large 'large small/* large'; do
    memory=$(most_memory $files)
    if [ "$memory" -le 8192 ]; then
        pass "$files: at most $memory KiB of memory"
    else
        fail "$files: $memory KiB of memory, more than 8192"
    fi
done

# The program with its wrong bodies: which of them is chosen stands on its standard input, as a number, and
# 0 is none. Each is run once, on four threads, and reads four pipes.
. "$top/checks/lib/builds"
try_bodies() {
    copy_sources
    python3 -B "$top/checks/lib/choose.py" program "$copy" "$@"
    mkdir "$copy/cases"
    number=0
    for edit in none "$@"; do
        echo "$number 0" > "$copy/cases/$(basename "$edit" .edit)"
        number=$((number + 1))
    done
    mkfifo "$work/1" "$work/2" "$work/3" "$work/4"
    for name in $(ls "$copy/cases"); do
        [ "$name" = none ] && seconds=60 || seconds=20
        reads_last "$seconds" "$work/1" "$work/2" "$work/3" "$work/4" && read=yes || read=no
        echo "$name: $read"
    done > "$work/read" &
    try digests src/main.rt --cases "$copy/cases" --arg -j --arg 4 --arg --progress --arg -- \
        --arg "$work/1" --arg "$work/2" --arg "$work/3" --arg "$work/4"
    wait
}

# Whether the program of this case reads the fourth pipe beside the others, and the last line of its progress.
seen() {
    sed -n "s/^$1: //p" "$work/read"
    awk -v head="== $1" '/^== / { is_it = $0 == head; next } is_it' "$copy/log" |
        grep -o '[0-9]* of 4 files, [0-9]* MiB' | tail -n 1
}
wanted=$(printf 'yes\n4 of 4 files, 4 MiB')
set -- $(edits_of wrong_bodies | xargs grep -lx 'program: digests')
try_bodies "$@"
[ "$(seen none)" = "$wanted" ] || fail "without an edit: $(seen none)" "$copy/log"
for edit in "$@"; do
    edit=$(basename "$edit" .edit)
    if [ "$(seen "$edit")" = "$wanted" ]; then
        fail "$edit: not refused"
    else
        pass "$edit: refused, as it must be"
    fi
done
count
