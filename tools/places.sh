#!/bin/bash
# Lists the lines of src/ where a place of the design pass may stand: a heading and a count for each of its points.
# Usage: tools/places.sh [-l]     with -l, the lines too
set -euo pipefail
cd "$(dirname "$0")/.."
list="${1:-}"
found="$(mktemp)"
trap 'rm -f "$found"' EXIT
files() { find crates -path '*/out' -prune -o -path '*/src/*' -name '*.rt' -print | LC_ALL=C sort; }
show() {
    echo "$1: $(wc -l < "$found")"
    if [ "$list" = -l ]; then sed 's/^/    /' "$found"; fi
}
# lines that a pattern fits
lines() { files | xargs grep -nE "$2" > "$found" || true; show "$1"; }
# functions whose signature, over several lines, a pattern fits
signatures() {
    files | xargs perl -0777 -ne 'while (/'"$2"'/g) { my $n = 1 + (substr($_, 0, $-[0]) =~ tr{\n}{}); print "$ARGV:$n: fn $1\n" }' > "$found"
    show "$1"
}
lines      '1 enums' '^ *(pub(\(crate\))? )?enum '
signatures '1 a bool beside a value that is written' 'fn (\w+)[^(){};]*\([^{};]*?&mut [^{};]*?\) -> bool'
lines      '1 numbers for kinds, refusals or none' '=> [0-9]+,$|-> \(u8, u8\)|, usize>$|Option<\w*Fault>|\b(NONE|NOBODY)\b|^ *texts\.len\(\)$'
lines      '2 names that differ in a size or a kind' '^ *(pub(\(crate\))? )?(fn|struct|type) \w*([24]|word|words|half|bytes|scatter|tree|Scatter|Tree|scenes|stores|rules|instructions|labels|states|acts|lines|Line|Agents|Names|judged|number|values)\b'
lines      '3 loops' "^ *(let \w+ = )?('\w+: )?((while|for) .*\{|loop \{)$"
lines      '3 indices counted by hand' "^ *while \w+ [<>] |^ *\w+ [-+]= 1;|^ *for \w+ in \w+\.\.|^ *while [a-z]+ > 0"
lines      '4 comparisons and conversions by hand' 'fn (same|order|rank|side|code|kind|stage|byte|word|half|pair|put|mix)[a-z_0-9]*\b|\b(256|65536|16777216)\b'
lines      '5 a fact of a parameter in a contract' 'requires .*(≤ length|< length|length .* ≡|Within|principal|partner|TidyIn|HoldsItsList|counters_fit|scattered)'
lines      '6 a length beside a buffer' '^ *(pub(\(crate\))? )?(count|sent|kept|agents|at): (usize|u8),$'
lines      '7 switches, functions handed on' 'match (layout|rule|docket\.arrangement|arrangement) \{$|fn\(|impl Fn|dyn |F: Fn'
