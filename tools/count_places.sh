#!/usr/bin/env bash
# Counts the lines of src/ (and of proofs/) that docs/DESIGN-PASS.md is about, a pattern a line: tools/count_places.sh [COMMIT].
# With -v before it, prints the lines too.
cd "$(dirname "$0")/.." || exit 1
verbose=; [ "$1" = -v ] && { verbose=1; shift; }
commit=${1:-}
count() {
    local name=$1 files=$2 pattern=$3 found
    found=$(git grep -nE -e "$pattern" $commit -- "$files")
    printf '%-4s %4d  %s\n' "$name" "$(printf %s "$found" | grep -c .)" "$4"
    [ -n "$verbose" ] && printf '%s\n' "$found"
}
src='crates/*/src/*.rt'
proofs='crates/*/proofs/*.antt'
count 1a "$src" '^ *(pub(\(crate\))? )?enum '                                   'enums of the project'
count 1b "$src" 'None => (return )?None|return None|return false|Err\([a-z_]+\) => (return )?Err|Ok\(\(\)\) => Ok|=> unreachable\(\)' 'arms and returns that pass an absence, a failure or a refusal on'
count 1c "$src" 'let .* else \{$'                                               'let .. else'
count 1d "$src" '-> bool'                                                       'functions that answer a bool'
count 1e "$src" 'fn [a-z_0-9]+\(\) -> u8$'                                      'functions that state a theorem and answer 0'
count 1f "$src" 'fn number\('                                                   'numbers of refusals'
count 2a "$src" 'fn (lesser|greater|plus|is_late|same_time|some_[a-z_]+|any_has|every_[a-z]+|stood|clear|forget|vacate|slot_at|moved_to|peg_at|result_in|add_dial|lower_dial)\b' 'functions that have a twin, or are a loop around one test'
count 2b "$src" 'enum (Join|Op|Task|Hanging)\b'                                 'enums that have a twin'
count 3a "$src" '^ *for [a-z_]+ in [a-z0-9_]+\.\.'                              'loops over a range of numbers'
count 3b "$src" '^ *(while |loop \{)'                                           'while and loop'
count 4a "$src" '^impl.* (PartialEq|Eq|PartialOrd|Ord|Clone|Copy|Default|From<.*>|TryFrom<.*>|(fmt::)?Display|Keyed|Entry) for' 'impls by hand'
count 4b "$src" ' as (u8|u16|u32|u64|usize)\b'                                  'casts'
count 4c "$src" 'fn (of|joint|put_two|in_move|same_[a-z]+|alike|has_key_of|eq|clone)\b' 'conversions and comparisons by hand'
count 5a "$src" 'requires .*\{ ?\(?(Ready nodes|Knows|Held|Moved|Store source)' 'requires of what a store, its results and its pegs keep'
count 5b "$src" 'requires .*\{ ?\(?(Lawful \(contents|Ready \(contents|Stands \(contents|.*shape ≡ \(contents)' 'requires of what a rig and a shelf keep'
count 5c "$src" '(nodes|source|spare): &(mut )?\[Option<Node>\]'                'slices of nodes handed on'
count 5d "$src" 'at: usize'                                                     'places in a buffer handed on'
count 6a "$src" '(<|>=|==) ?[a-z_.]+\.len\(\)|[a-z_.]+\.len\(\) (<|>=|==|>|!=) ?' 'lengths compared by hand'
count 6b "$src" '^    (pub(\(crate\))? )?[a-z]+: (\[.*; .*\]|Vec<.*>|Short<.*>),$' 'fields that are arrays, vectors or bounded lists'
count 7  "$src" 'match (how|op|flaw|task|call|self\.call)\b'                    'switches on which step to run'
count 8a "$proofs" 'AllByRecursion as All'                                      'other names for a word of std'
count 8b "$proofs" "goal as goal'"                                              "names made of another by a stroke"
count 8c "$proofs" '^pub [^ ]+ : goal\.'                                        'answers'
count 8d "$proofs" '^(abbrev )?pub [^ ]+ : \('                                  'lemmas and words of proofs'
