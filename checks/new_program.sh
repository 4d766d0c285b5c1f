#!/bin/sh
# Lays out repositories of one's own by ./new_program: what stands in one is what stands here, its program
# runs, and bad input gets one sentence, the exit status 1, and leaves nothing behind.
#
# Nothing is proved: the program and the crates below it are copies of crates that the gate proves.
# Usage: checks/new_program.sh, anywhere. RT names the command rt. Its last line counts the comparisons.
# Runs beside the gate.
set -u
. "$(dirname "$0")/lib/edits"
here=$copy/here
mkdir "$here"
cd "$here" || exit 1

compare() {
    name=$1
    shift
    if "$@" > "$copy/log" 2>&1; then pass "$name"; else fail "$name: not so" "$copy/log"; fi
}

# Whether it refuses these words with this text, in one line, and leaves the folder as it was. No file may
# grow past so many blocks meanwhile.
blocks=unlimited
refuses() {
    text=$1
    shift
    find . | sort > "$copy/before"
    (ulimit -f "$blocks" && exec "$top/new_program" "$@") > "$copy/said" 2> "$copy/why"
    [ $? = 1 ] && [ ! -s "$copy/said" ] && [ "$(wc -l < "$copy/why")" = 1 ] && grep -qF -- "$text" "$copy/why" &&
        find . | sort | cmp - "$copy/before"
    result=$?
    cat "$copy/said" "$copy/why"
    return $result
}

lays_out() { "$top/new_program" --unproved "$@"; }

# Whether the folder of a crate has the sources of a crate here.
is_copy() { diff -r -x out "$top/crates/$1" "$2"; }

runs() {
    [ "$(cd app/crates/my_app && "$rt" try -- 10000 4 2> "$copy/log" < /dev/null)" = '1229 primes below 10000' ] ||
        cat "$copy/log"
}

# Makes a command rt that takes each name, and whose `lib` proves nothing, and ends with this status. It keeps
# where that was called.
make_rt() {
    cat > "$copy/rt" <<END
#!/bin/sh
[ "\$1" = lib ] || exit 0
pwd > "$copy/place"
exit $1
END
    chmod +x "$copy/rt"
}

# Whether it has the crates proved where they stand, and lays out a program over them.
proves() {
    make_rt 0
    RT=$copy/rt "$top/new_program" proved && is_copy starter proved/crates/proved &&
        [ "$(cat "$copy/place")" = "$top/crates/async_utilities" ]
}

# Whether it lays out nothing if they are not proved.
leaves_unproved() {
    make_rt 1
    RT=$copy/rt "$top/new_program" unproved 2> "$copy/why"
    [ $? = 1 ] && [ ! -e unproved ] &&
        grep -qxF "new_program: the crates are not proved: 'rt lib' in $top/crates/async_utilities says why" \
            "$copy/why"
}

mkdir bare empty-one full
touch full/file
ln -s nowhere link

compare 'a new folder' lays_out app my_app
for crate in executor_core async_executor async_utilities; do
    compare "the copy of $crate" is_copy $crate app/crates/$crate
    compare "the line of $crate" grep -qxF "$(grep "^$crate[ :]" "$top/crates.txt")" app/crates.txt
done
compare 'the program' is_copy starter app/crates/my_app
compare 'the line of the program' grep -qxF "$(sed -n 's/^starter/my_app/p' "$top/crates.txt")" app/crates.txt
compare 'no other line' [ "$(grep -c . app/crates.txt)" = 4 ]
compare 'the handles' cmp "$top/HANDLES" app/HANDLES
compare 'what is not committed' cmp "$top/.gitignore" app/.gitignore
compare 'an empty folder, whose name the program has' lays_out empty-one
compare 'the program of that name' is_copy starter empty-one/crates/empty_one
compare 'the program runs' runs
compare 'the crates are proved first' proves
compare 'crates that are not proved' leaves_unproved

compare 'no folder' refuses 'name a folder'
compare 'a folder without a name' refuses 'has no name' ''
compare 'an option that there is not' refuses 'there is no option' --proved new
compare 'an option behind the other' refuses 'there is no option' --unproved -x
compare 'three words' refuses 'name a folder' a b c
compare 'a folder that has files' refuses 'has files' full
compare 'a folder that was laid out' refuses 'has files' app
compare 'a file' refuses 'is no folder' full/file
compare 'a link to nothing' refuses 'is no folder' link
compare 'no folder above' refuses 'there is no folder' none/deep
compare 'a folder that cannot be made' refuses 'cannot be made' /proc/new
compare 'a folder of this repository' refuses 'lies in this repository' "$top/docs/new"
for name in '' 9a Big a-b 'a b' a.b _a; do
    compare "the name '$name'" refuses 'is no name of a program' new "$name"
done
for name in loop self std slab sha2; do
    compare "the name '$name', which the language has" refuses 'the language' new $name
done
for name in executor_core async_utilities simulation; do
    compare "the name '$name', which a crate has" refuses 'a crate is named' new $name
done
compare 'the name of what rt makes' refuses "a folder 'out'" new out
RT=/none/rt compare 'no command rt' refuses 'there is no command' new
blocks=8
RT=$copy/rt compare 'a disk that is full' refuses 'cannot be written' new
RT=$copy/rt compare 'a disk that is full, and an empty folder' refuses 'cannot be written' bare
count
