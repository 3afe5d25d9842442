#!/bin/sh
# Programs that the compiler must refuse before any proof: each edit of program.txt breaks one rule of slips and verdicts, or
# names what a crate keeps to itself, and must get the message that it states. program.txt itself must be accepted. `rt must-fail` takes only edits that reach
# the prover, so these are tried here, by the compiler's front end alone, on the libraries' sources: a check of a function
# that has no name proves nothing. A line for each; the last is 'N refused as stated, M not'.
set -eu
here=$(cd "$(dirname "$0")" && pwd)
top=$(dirname "$here")
kit=${RATTLE_HOME:-$(dirname "$(dirname "$(readlink -f "$(command -v rt)")")")}
work=$(mktemp -d)
trap 'rm -rf "$work"' EXIT

# the libraries that a library uses, and those that the program reaches, the lowest first
uses() { sed -n "s/#.*//; s/^$1:[ ]*//p" "$top/crates.txt"; }
reach() {
    for dep in $(uses "$1"); do reach "$dep"; done
    echo "$1"
}
set -- --extern "std=$kit/rlibs/std.rlib" --extern "core=$kit/rlibs/core.rlib" -L "dependency=$kit/rlibs"
for lib in $({ reach register; reach tables; } | awk '!seen[$0]++'); do
    below=$(uses "$lib" | tr -s ' ' ',' | sed 's/,$//')
    set -- "$@" --lib "$lib:core,std${below:+,$below}=$top/crates/$lib/src/lib.rt"
done

# the front end on a program: what it says goes to $work/said
compile() {
    mkdir -p "$work/src"
    cp "$1" "$work/src/main.rt"
    shift
    (cd "$work" && "$kit/bin/rattle" check --crate-name program src/main.rt "$@" --only "" \
        --antt-project "$kit/rattle/logic/antt-project.json" --logic-built "$kit/logic_built" --jobs 1) >"$work/said" 2>&1
}
field() { sed -n "s/^$1: //p" "$2"; }

good=0 bad=0
if compile "$here/program.txt" "$@"; then
    echo "program.txt: accepted"
else
    echo "program.txt: NOT ACCEPTED as it stands"
    head -n 3 "$work/said"
    bad=1
fi
for edit in "$here"/*.edit; do
    name=$(basename "$edit" .edit)
    OLD=$(field old "$edit") NEW=$(field new "$edit") awk '
        { s = $0; i = index(s, ENVIRON["OLD"]); if (i) { n++; s = substr(s, 1, i - 1) ENVIRON["NEW"] substr(s, i + length(ENVIRON["OLD"])) } print s }
        END { if (n != 1) { print "refused: the old text stands " n + 0 " times" > "/dev/stderr"; exit 1 } }' "$here/program.txt" >"$work/edited.rt" || { echo "$name: NOT TRIED"; bad=$((bad + 1)); continue; }
    if compile "$work/edited.rt" "$@"; then
        echo "$name: NOT REFUSED"
        bad=$((bad + 1))
    elif grep -qF -- "$(field says "$edit")" "$work/said"; then
        echo "$name: refused: $(field says "$edit")"
        good=$((good + 1))
    else
        echo "$name: REFUSED FOR ANOTHER REASON than: $(field says "$edit")"
        head -n 3 "$work/said"
        bad=$((bad + 1))
    fi
done
echo "$good refused as stated, $bad not"
[ "$bad" -eq 0 ]
