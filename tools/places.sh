#!/bin/sh
# Counts, at a commit, the lines of src/ that may be places of an older form, point by point (docs/DESIGN-PASS.md says which of
# them are). With a second argument, shows the lines of that point.
#     tools/places.sh COMMIT
#     tools/places.sh COMMIT 3
commit=${1:?a commit}
only=$2

look() { # point, what it looks for, pattern
    [ -z "$only" ] || [ "$only" = "${1%%[a-z]*}" ] || return 0
    lines=$(git grep -nE -e "$3" "$commit" -- ':(glob)crates/*/src/**' | cut -d: -f2-)
    printf '%s\t%s\t%s\n' "$1" "$(printf '%s' "$lines" | grep -c '')" "$2"
    [ -z "$only" ] || printf '%s\n' "$lines"
}

look 1a 'own enums' '^ *(pub(\(crate\))? )?enum '
look 1b 'a refusal that is a text' "&'static str>"
look 1c 'a number that may stand for a refusal' '-> usize$'
look 1d 'an Option in a Result' 'Result<Option<'
look 1e 'a flag as a parameter' ': bool[,)]'
look 2a 'types' '^ *(pub(\(crate\))? )?(struct|enum|type) '
look 2b 'functions' '^ *(pub(\(crate\))? )?fn '
look 3a 'loops' "^ *('[a-z_]+: )?(for|while|loop) .*\{"
look 3b 'an index that is counted' 'for [a-z]+ in [0-9]+\.\.[a-z]|enumerate\(\)|for \(i, '
look 4a 'sameness by hand' 'fn (same|is_same|eq)\b'
look 4b 'conversions and names by hand' 'fn (parse|named|number|change|store_plan|explanation|word|title|as_str)\b'
look 4c 'a match that map, ok or ? say' 'None => None|Some\([a-z]+\) => Some\([a-z]+\)|Err\(_\) => None'
look 4d 'types that derive Clone and Copy alone' 'derive\(Clone, Copy\)'
look 5a 'an allocator as a parameter' 'heap: Global'
look 5b 'a name and a kind as two parameters' 'name: Word, kind: Kind|\(name, kind'
look 5c 'the runtime as a parameter' 'rt: &HostRuntime'
look 5d 'the cells, or the parts of a tree, as parameters' 'cells: &(mut )?(\[Cell\]|Vec<Cell>)'
look 5e 'what a tree stands for, in a clause' 'Built (tree|self)'
look 5f 'what rows say, in a clause' 'Keyed\.says|rows_say'
look 6a 'a length beside a buffer, or a count beside a list' '^    (len|depth|count): '
look 6b 'a slice that is asked for by name' 'as_(mut_)?slice\(\)'
look 6c 'an arena: what names a cell' 'Pair\(usize\)|cells\[i\]'
look 7a 'closures' '\|[a-z_&(), ]*\| *([a-z!(*-]|$)'
look 7b 'boxes, dyn, function pointers' 'Box<|\bdyn |: fn\('
