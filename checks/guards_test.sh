#!/bin/sh
# Tests guards.sh on a small repository, which it makes: what counts as the refusal of a guard, and
# what does not.
# Usage: checks/guards_test.sh, anywhere. RT names the command rt. Its last line counts the cases.
# Runs beside the gate.
set -eu
. "$(dirname "$0")/lib/edits"
mkdir -p "$copy/checks/guards" "$copy/checks/lib" "$copy/crates/sums/src"
(cd "$top/checks" && cp guards.sh "$copy/checks" &&
    cd lib && cp built edits edits.py guards.py refused.awk "$copy/checks/lib")
echo 'sums:' > "$copy/crates.txt"
cat > "$copy/crates/sums/src/lib.rt" <<'END'
//! Sums of small numbers.
#![tactic(auto)]

ghost use Rattle.std.specs.Prelude.{◌≡◌, ◌+◌, ◌<◌};

const LIMIT: u64 = 100;

/// The number and itself.
pub fn twice(x: u64) -> u64
    requires { x < 100 }
    ensures { result ≡ x + x }
{
    x + x
}

/// The number and itself, twice.
pub fn thrice(x: u64) -> u64
    requires { x < 100 }
    ensures { result ≡ x + x + x }
{
    let double = twice(x);
    double + x
}

/// The number and itself, twice, by a name so long that an error about its proof goes on in the next line.
pub fn thrice_by_a_name_so_long_that_an_error_goes_on_in_the_next_line(x: u64) -> u64
    requires { x < 100 }
    ensures { result ≡ x + x + x }
{
    let sum = twice(x);
    x + sum
}

/// Four.
pub fn four() -> u64
    ensures { result ≡ 4 }
{
    twice(2)
}

/// A hundred.
pub fn limit() -> u64
    ensures { result ≡ 100 }
{
    LIMIT
}
END
long=thrice_by_a_name_so_long_that_an_error_goes_on_in_the_next_line

# Answers the goal of a function, from what the call that gave this local ensures.
answer() {
    mkdir -p "$copy/crates/sums/proofs/$1"
    cat > "$copy/crates/sums/proofs/$1/Answers.antt" <<END
use Rattle.std.proofs.Common.{arith}
use Rattle.sums.proofs.$1.Goals as goal

pub returns : goal.returns
returns c = omega (arith, c.twice-$2.ensures)
END
}
answer thrice double
answer $long sum

# Makes a guard of this name, function, old text and new text.
guard() {
    printf 'crate: sums\nfunction: %s\nfile: src/lib.rt\nold: %s\nnew: %s\n' "$2" "$3" "$4" \
        > "$copy/checks/guards/$1.edit"
}

# Tries the guards, or those that are asked for.
try_guards() { "$copy/checks/guards.sh" "$@" > "$copy/said" 2>&1 && status=0 || status=$?; }

# The case holds where a line of what was said begins so.
says() {
    if grep -q "^$2" "$copy/said"; then
        pass "$1"
    else
        fail "$1: no line begins with '$2'" "$copy/said"
    fi
}

# The case holds where this line is the last, and the exit status is this.
ends() {
    if [ "$(tail -n 1 "$copy/said")" = "$2" ] && [ "$status" = "$3" ]; then
        pass "$1"
    else
        fail "$1: the status is $status, and the last line not '$2'" "$copy/said"
    fi
}

guard by_search twice '    x + x\n' '    x + 1\n'
guard by_an_answer thrice 'double + x\n' 'double + 1\n'
guard by_search_too twice '    x + x\n' '    x + 2\n'
guard by_an_answer_too thrice 'double + x\n' 'double + 2\n'
try_guards
says 'a goal that no search proves' 'by_search.edit: twice is refused, as it must be: returns$'
says 'the second guard of a function' 'by_search_too.edit: twice_2 is refused, as it must be: returns$'
says 'a goal that its answer does not prove' 'by_an_answer.edit: thrice is refused, as it must be: returns$'
says 'and the second' 'by_an_answer_too.edit: thrice_2 is refused, as it must be: returns$'
ends 'right guards pass' '4 passed, 0 failed' 0

rm "$copy"/checks/guards/*
guard of_nothing four 'twice(2)' 'twice(1 + 1)'
guard by_an_answer thrice 'double + x\n' 'double + 1\n'
guard by_an_answer_of_nothing thrice 'double + x\n' 'x + double\n'
guard of_a_name thrice 'double = twice(x);\n    double + x' 'other = twice(x);\n    other + 1'
guard of_a_near_name $long 'sum = twice(x);\n    x + sum' 'sums = twice(x);\n    1 + sums'
try_guards sums four thrice $long
says 'a body that is right' 'of_nothing.edit: four is not refused by a goal of its own:$'
says 'a second body that is right, which waited for the first' 'by_an_answer_of_nothing.edit: thrice is not refused by a goal of its own:$'
says 'an answer that names what is there no more' 'of_a_name.edit: thrice_3 is not refused by a goal of its own:$'
says 'and one of whose name another is near' "of_a_near_name.edit: $long is not refused by a goal of its own:\$"
ends 'wrong guards fail' '1 passed, 4 failed' 1

rm "$copy"/checks/guards/*
guard unread twice '    x + x\n' '    x + y\n'
try_guards sums twice
says 'a text that cannot be read' 'unread.edit: twice was not tried, since the round cannot be read:$'

# Tries the guards where one of them cannot be tried, which has to say why.
cannot_be_tried() {
    guard right four 'twice(2)' 'twice(3)'
    try_guards
    says "$1" "$2"
    ends "$1, and no guard is tried" '0 passed, 1 failed' 1
    rm "$copy"/checks/guards/*
}
rm "$copy"/checks/guards/*
guard unfound twice 'y + y' 'y + 1'
cannot_be_tried 'an old text that is not there' 'unfound.edit: its old text stands 0 times in its file, and not once$'
guard of_a_proof thrice 'omega' 'grind'
sed -i 's/^file: .*/file: proofs\/thrice\/Answers.antt/' "$copy/checks/guards/of_a_proof.edit"
cannot_be_tried 'an edit of a proof' 'of_a_proof.edit: it changes no file of src/$'
guard of_more_than_a_body limit 'u64 = 100' 'u64 = 101'
cannot_be_tried 'an edit of a constant' 'of_more_than_a_body.edit: it changes more than bodies of functions$'
guard of_another_body four '    x + x\n' '    x + 2\n'
cannot_be_tried 'an edit of another function' 'of_another_body.edit: it changes another function than four$'
count
