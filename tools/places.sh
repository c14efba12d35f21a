#!/bin/sh
# Lists the lines of crates/*/src/*.rt in which an older form of code may stand, by kind, and counts them. Run it at the top of
# the repository:
#   sh tools/places.sh          each line
#   sh tools/places.sh -c       the counts alone
# What it finds is a place to read, not a verdict. Some kinds are looked for by the names that the older forms had (4a, 4b, 6b): that
# these find nothing shows that the names are gone, and no more.
mode=$1
show() {
    found=$(grep -nE -e "$2" crates/*/src/*.rt)
    echo "$1: $(printf '%s' "$found" | grep -c '')"
    [ "$mode" = -c ] || printf '%s\n' "$found" | sed 's/^crates/  crates/'
}
show '1a numbers for kinds, sections and refusals' '^ +pub (market|side|refusal|section|cause): u(8|16|32)'
show '1b a yes or no in the place of an error' '-> (io::)?Result<bool>'
show '1c enums' '^(pub(\([a-z]+\))? )?enum '
show '2a types' '^(pub(\([a-z]+\))? )?(struct|type) '
show '2b tests that say yes or no' '-> bool'
show '3a loops over an index' 'for [a-z_]+ in [0-9a-z]+\.\.|while [a-z]+ <'
show '3b elements by the index of a loop' '\[(i|k|place)\]'
show '3c loops over elements' 'for [a-z_(&, )]+ in [^.]+(\.iter\(\)|\.iter_mut\(\)|\.iter\(\)\.enumerate\(\))? \{|while let'
show '3d arrays taken apart or filled by hand' 'let \[a, b|lines\[0\]\.|copy_from_slice|= \[0; 8\]'
show '4a conversions by hand' 'fn (numbered|number|numbers|plain|of_load)\('
show '4b printing by hand' 'fn print_'
show '4c comparison by hand' '\.[a-z]+ == [a-z]+\.[a-z]+ &&|fn assert_line|_ => \{$'
show '4d plain types with no derived comparison' '^#\[derive\(Clone, Copy\)\]'
show '5 what is required of callers' '^ +requires '
show '6a a length beside a buffer' '(count|members): (usize|u16)'
show '6b parallel arrays' '^ +pub (shares|calls): \[u64; 8\]'
show '6c searches by hand' 'return Some\('
show '7 matches, function pointers, dyn' 'match |: fn\(|dyn '
