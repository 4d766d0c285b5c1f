#!/bin/sh
# Compares what the pages say with what the repository has: programs, examples and printed runs word
# for word, the calls and clauses that carry a promise, callers and their files, the modules of the
# map, the worked interleaving of exsim, examples and their lines, links, and figures. And counts their words.
# Usage: checks/readme.sh, anywhere. RT names the command rt. Its last line counts the comparisons.
set -u
. "$(dirname "$0")/lib/edits"
cd "$top" || exit 1
callings=$(echo crates/*/CALLING.md)
pages="README.md $(echo docs/*.md) $callings"
words_at_most=22000
sources=$(find crates uses -path '*/out' -prune -o \( -name '*.rt' -o -name '*.antt' -o -name '*.rs' \) -print)

printf '%s\n' "$sources" | xargs cat > "$copy/sources"

# The text of the first block of this language on a page, below the first line with this text.
block() { awk -v at="$3" -v head="\`\`\`$2" '
    !below { below = index($0, at); next }
    inside && /^```$/ { exit }
    inside { print }
    $0 == head { inside = 1 }' "$1"; }

# The words in backticks on a page, outside of its blocks.
quoted() { awk '/^```/ { inside = !inside } !inside' "$1" | grep -o '`[^`]*`' | tr -d '`' | sort -u; }

same() {
    if [ -s "$copy/wanted" ] && diff "$copy/said" "$copy/wanted" > "$copy/log"; then
        pass "$1: the same"
    else
        fail "$1: not the same" "$copy/log"
    fi
}

# The texts in backticks of the cell on standard input that a file lacks.
lacked_by() {
    grep -o '`[^`]*`' | tr -d '`' | while IFS= read -r text; do
        grep -qF -- "$text" "$1" || echo "$1: $text"
    done
}

# Whether this pattern is found in a source or a spec.
stands() { grep -qE -- "$1" "$copy/sources"; }

# Runs exsim: that of the gate, unless a source is newer.
run_exsim() {
    if [ -x crates/exsim/out/exsim ] && [ -z "$(find crates/*/src -newer crates/exsim/out/exsim)" ]; then
        crates/exsim/out/exsim
    else
        (cd crates/exsim && "${RT:-rt}" try 2> /dev/null)
    fi
}

# The file of a caller uses::MODULE::NAME, and whether one of these files has a function.
file_of() { echo "$1" | sed 's|::[^:]*$|.rs|; s|::|/src/|'; }
is_in() {
    name=$1
    shift
    grep -qE "fn $name\b" "$@" 2> /dev/null
}

# A word that names a call, a clause, a type, a definition, a crate or a path has to be there.
is_there() {
    case $1 in
        *[!A-Za-z0-9_:./]* | F | R | S | W | self | break | unsafe | async | Result | usize::MAX | specs/ | proofs/ | src/ | out/ | io::*) return 0 ;;
        uses::*::*) is_in "${1##*::}" "$(file_of "$1")" ;;
        uses::*) is_in "${1#uses::}" uses/src/*.rs ;;
        */* | *.md | *.txt | *.svg) [ -e "$1" ] || [ -e "docs/$1" ] || [ -e "crates/executor_core/src/$1.rt" ] ||
            [ -e "crates/async_executor/src/$1.rt" ] || [ -e "crates/async_utilities/src/$1.rt" ] ;;
        [A-Z]*::[a-z]*) stands "fn ${1#*::}\b" ;;
        [A-Z]*::[A-Z]*) stands "^ +${1#*::}(\(|,| \{|$)" ;;
        [A-Z]*) stands "(struct|enum|trait|type|const) $1\b" || stands "^ +$1(\(|,| \{|$)" ;;
        *) [ -d "$1" ] || stands "(fn|mod|ensures|pub|ghost) $1\b" || stands "codes \"$1\"" || grep -qw "$1" crates.txt ||
            grep -q "^$1 " bench/stdout || [ -n "$(find checks -name "$1.edit")" ] ;;
    esac
}

words=$(cat $pages | wc -w)
if [ "$words" -le "$words_at_most" ]; then
    pass "all pages: $words words of $words_at_most"
else
    wc -w $pages > "$copy/log"
    fail "all pages: $words words, and $words_at_most are the most" "$copy/log"
fi

wc -lw README.md > "$copy/log"
read -r lines words _ < "$copy/log"
if [ "$lines" -le 130 ] && [ "$words" -le 900 ]; then
    pass "README.md: $lines lines of 130, $words words of 900"
else
    fail "README.md: more than 130 lines or 900 words" "$copy/log"
fi

block README.md rust "## A whole program" > "$copy/said"
cp crates/hello/src/main.rt "$copy/wanted"
same "README.md, the program and crates/hello"

block README.md text "## A whole program" > "$copy/said"
grep '^hello' crates.txt > "$copy/wanted"
same "README.md, the program's line of crates.txt"

sed -n 's/^It prints `\([^`]*\)`.*/\1/p' README.md > "$copy/said"
cp crates/hello/stdout "$copy/wanted"
same "README.md, what the program prints"

block README.md text "exsim takes" > "$copy/said"
cp crates/exsim/stdout "$copy/wanted"
same "README.md, the run of exsim"

# The kit of who runs this may be a later one, as long as its logic is that of the page.
here=$("${RT:-rt}" version)
page=$(sed -n 's/^`rt version` prints `\([^`]*\)`.*/\1/p' README.md)
if [ -n "$page" ] && [ "${page#* logic }" = "${here#* logic }" ]; then
    [ "$page" = "$here" ] || echo "README.md names '$page', and here is '$here': the same logic"
    pass "README.md, the logic of the toolchain: the same"
else
    echo "the page: $page; here: $here. Run ./check on this toolchain, and write its line into README.md" > "$copy/log"
    fail "README.md, the logic of the toolchain: another" "$copy/log"
fi

# The example of a page is a whole piece of the file that the page names above it.
for page in $callings; do
    block "$page" rust "## Example" > "$copy/said"
    file=$(sed -n '/^## Example/,/^```/p' "$page" | grep -oE '\([^()]*\.rs\)' | head -n 1 | tr -d '()')
    if [ -s "$copy/said" ] && python3 -c 'import sys; sys.exit(open(sys.argv[1]).read() not in open(sys.argv[2]).read())' \
        "$copy/said" "$(dirname "$page")/$file"; then
        pass "$page, the example: in $file"
    else
        fail "$page, the example: not in $file" "$copy/said"
    fi
done

# A caller stands in the file whose link is before it.
for page in $callings; do
    file=
    awk '/^```/ { inside = !inside } !inside' "$page" | grep -oE '\(\.\./\.\./uses/src/[a-z_]*\.rs\)|`uses::[a-z_]+`' | tr -d '()`' |
        while read -r word; do
            case $word in
                uses::*) [ -z "$file" ] || grep -qE "fn ${word#uses::}\b" "$(dirname "$page")/$file" || echo "$word: not in $file" ;;
                *) file=$word ;;
            esac
        done > "$copy/log"
    if [ -s "$copy/log" ]; then fail "$page, callers in other files:" "$copy/log"; else pass "$page: each caller is in its file"; fi
done

block docs/FROM_SMOL.md rust "## From an" > "$copy/said"
sed -n '/^    fn poll/,/^    }/s/^    //p' uses/src/translating.rs > "$copy/wanted"
same "FROM_SMOL.md, the poll and the folder uses"

# A row has what stands in the async fn, and what in the type that it became.
block docs/FROM_SMOL.md text "## From an" > "$copy/smol"
sed -n '/^in smol | here$/,/^$/{/`/p}' docs/FROM_SMOL.md > "$copy/rows"
while IFS='|' read -r smol here; do
    echo "$smol" | lacked_by "$copy/smol"
    echo "$here" | lacked_by uses/src/translating.rs
done < "$copy/rows" > "$copy/log"
if [ -s "$copy/log" ] || [ "$(wc -l < "$copy/rows")" -lt 10 ]; then
    fail "FROM_SMOL.md, rows of the async fn that do not stand in it, or in its type:" "$copy/log"
else
    pass "FROM_SMOL.md: $(wc -l < "$copy/rows") rows of the async fn, as it and its type have them"
fi

# A row has what one writes with smol, what one writes here, and the caller in whose file that stands.
sed -n '/^## What one writes/,/^## From/{s/[\\]|//g;p}' docs/FROM_SMOL.md |
    grep '| `uses::[a-z_:]*`$' > "$copy/rows"
while IFS='|' read -r _ here caller; do
    caller=$(echo "$caller" | tr -d ' `')
    echo "$here" | lacked_by "$(file_of "$caller")"
done < "$copy/rows" > "$copy/log"
if [ -s "$copy/log" ] || [ "$(wc -l < "$copy/rows")" -lt 15 ]; then
    fail "FROM_SMOL.md, rows whose callers lack what they say:" "$copy/log"
else
    pass "FROM_SMOL.md: $(wc -l < "$copy/rows") rows, each as its caller has it"
fi

# What a name of smol's crates is called here.
awk -F' [|] ' '/^## Every public name/ { names = 1 } names && NF == 2 { print $2 }' docs/FROM_SMOL.md > "$copy/here.md"
quoted "$copy/here.md" | while read -r word; do is_there "$word" || echo "$word"; done > "$copy/log"
if [ -s "$copy/log" ]; then
    fail "FROM_SMOL.md names what is not there:" "$copy/log"
else
    pass "FROM_SMOL.md: what it names is there"
fi

for page in README.md docs/PROVED.md docs/ARCHITECTURE.md docs/BUGS.md docs/MEASURED.md docs/PROCESSORS.md $callings; do
    quoted "$page" | while read -r word; do
        # Of a call with its arguments the name has to be there.
        call=${word%%(*}
        case $call in
            *' '* | "$word") ;;
            *) [ "${page%CALLING.md}" = "$page" ] || word=${call##*.} ;;
        esac
        is_there "$word" || echo "$word"
    done > "$copy/log"
    if [ -s "$copy/log" ]; then
        fail "$page names what is not there:" "$copy/log"
    else
        pass "$page: what it names is there"
    fi
done

python3 -B checks/lib/clauses.py > "$copy/carried"
sed '$d' "$copy/carried" > "$copy/log"
if [ -s "$copy/log" ] || ! [ "$(tail -n 1 "$copy/carried")" -gt 0 ]; then
    fail "docs/PROVED.md, clauses that what is before them lacks:" "$copy/log"
else
    pass "docs/PROVED.md: $(tail -n 1 "$copy/carried") clauses, each of a call or a type before it"
fi

python3 -B checks/lib/clauses.py --wide | grep . > "$copy/log" || :
if [ -s "$copy/log" ]; then
    fail "clauses that are wider than 100 columns:" "$copy/log"
else
    pass "no clause is wider than 100 columns"
fi

# A word of DEFINITIONS.md stands in the spec whose path is before its last dot, or in some source.
is_defined() {
    case $1 in
        [A-Z]*.[A-Za-z]*) find crates -path "*/specs/$(echo "${1%.*}" | tr . /).antt" \
            -exec grep -qw -- "${1##*.}" {} \; -print | grep -q . ;;
        *) stands "(record|abbrev pub|pub mod) $1\b" || is_there "$1" ;;
    esac
}

quoted docs/DEFINITIONS.md | while read -r word; do is_defined "$word" || echo "$word"; done > "$copy/log"
if [ -s "$copy/log" ]; then
    fail "docs/DEFINITIONS.md names what is not there:" "$copy/log"
else
    pass "docs/DEFINITIONS.md: what it names is there"
fi

# What shows a row of DIFFERENCES.md is a file or a test of tests/executors, or what the other pages name.
is_shown() {
    case $1 in
        uses::*) is_there "$1" ;;
        *::*) grep -qE "fn ${1#*::}\b" "tests/executors/${1%%::*}.rs" ;;
        *) [ -e "tests/executors/$1.rs" ] || is_there "$1" ;;
    esac
}

awk -F' [|] ' 'NF == 3 { print $3 }' docs/DIFFERENCES.md > "$copy/shown"
quoted "$copy/shown" | while read -r word; do is_shown "$word" || echo "$word"; done > "$copy/log"
if [ -s "$copy/log" ]; then
    fail "docs/DIFFERENCES.md, tests and callers that are not there:" "$copy/log"
else
    pass "docs/DIFFERENCES.md: what shows each row is there"
fi

for crate in executor_core async_executor priority_executor sharded_executor async_utilities pools simulation digests mandelbrot \
    starter bank; do
    (cd crates/$crate/src && find . -name '*.rt') | sed 's/^\.\///; s/\.rt$//' |
        grep -vxE 'lib|main|tests(/.*)?' | sort > "$copy/wanted"
    quoted docs/ARCHITECTURE.md | grep -Fxf "$copy/wanted" | sort > "$copy/said"
    same "ARCHITECTURE.md, the modules of $crate"
done

grep -rhoE '`uses::[a-z_:]+`' docs crates/*/src $callings | tr -d '`' | sort -u |
    while read -r word; do is_there "$word" || echo "$word"; done > "$copy/log"
if [ -s "$copy/log" ]; then
    fail "examples that the folder uses lacks:" "$copy/log"
else
    pass "each example is in the folder uses"
fi

# Each module of the folder uses can be copied alone into a program.
if grep -nE '\b(crate|super|uses)::' uses/src/*.rs > "$copy/log"; then
    fail "modules of uses that name another:" "$copy/log"
else
    pass "no module of uses names another"
fi

# The public calls and types of these crates whose comment names no example. The machines of ticks and runs,
# the random numbers of a search, and many types of async_executor are in modules that are not public.
for source in $(cd crates && find async_executor/src async_utilities/src priority_executor/src \
    sharded_executor/src pools/src -name '*.rt' ! -path '*/machine/*'); do
    awk -v source="$source" '
        /^ *\/\/\/ Example: / { example = 1 }
        /^ *pub fn / || (/^pub (struct|enum|trait) / && source !~ /^async_executor/) {
            if (!example) print source ": " $3
        }
        !/^ *(\/\/\/|#\[)/ { example = 0 }' "crates/$source"
done > "$copy/log"
if [ -s "$copy/log" ]; then
    fail "calls and types without an example:" "$copy/log"
else
    pass "each public call and type has an example"
fi

python3 -B checks/lib/examples.py > "$copy/examples" 2>&1
sed '$d' "$copy/examples" > "$copy/log"
if [ -s "$copy/log" ] || ! [ "$(tail -n 1 "$copy/examples")" -gt 0 ]; then
    fail "examples that are not the whole body of a caller, or name one that is not there:" "$copy/log"
else
    pass "each example is the whole body of a caller, or names one"
fi

for page in $pages; do
    grep -oE '\]\([^)#]*' "$page" | sed 's/^](//' | grep -v '^http' | while read -r link; do
        [ -e "$(dirname "$page")/$link" ] || echo "$page: $link"
    done
done > "$copy/log"
if [ -s "$copy/log" ]; then fail "links to nothing:" "$copy/log"; else pass "each link has its page"; fi

sed -n '/^## The lines/,/^## /s/^`\([a-z]*\)[^`]*` | .*/\1/p' docs/EXSIM.md | sort > "$copy/said"
sed -n 's/^word_of .* = codes "\(.*\)"$/\1/p' crates/simulation/specs/Grammar.antt | sort > "$copy/wanted"
same "EXSIM.md, the words of a line"

# Each text on these pages has lines for a new world, each with its reply behind two spaces or more.
for page in BUGS.md EXSIM.md; do
    awk -v file="$copy/$page" '/^```text$/ { text = file "." ++count; next } /^```$/ { text = "" } text { print > text }' \
        "docs/$page"
    for text in "$copy/$page".*; do
        sed 's/.*  //' "$text" > "$copy/said"
        sed 's/  .*//' "$text" | run_exsim > "$copy/wanted"
        same "$page, text ${text##*.} of exsim"
    done
done

sed -n 's/^bench | \([a-z0-9_]*\) .*/\1/p' docs/figures.txt | sort > "$copy/said"
cut -d' ' -f1 bench/stdout | grep -Fxf "$copy/said" | sort > "$copy/wanted"
same "figures.txt, the rows of bench"

docs/figures.py --check > "$copy/figures"
sed '$d' "$copy/figures"
counts=$(tail -n 1 "$copy/figures")
passed=$((passed + ${counts%% *}))
counts=${counts#*, }
failed=$((failed + ${counts%% *}))
count
