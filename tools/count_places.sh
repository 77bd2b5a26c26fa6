#!/bin/sh
# Lists the places in src/ that an older form of the language may have left, a heading for each kind of place.
# Run it at the top of the repository; `tools/count_places.sh | grep -c '^P3'` counts those of a kind.
# A line is a place to look at: docs/DESIGN-PASS.md says which of them are places and what became of each.
cd "$(dirname "$0")/.." || exit 1

# list KIND PATTERN: each line of src/ that matches, with the kind before it
list() {
    grep -rnE --include=*.rt "$2" crates/*/src | sed "s/^/$1 /"
}

# 1. enums of the crates; an Option or a Result taken apart and put together by hand; numbers that stand for a case
list P1-enum '^ *pub(\(crate\))? enum |^ *enum '
list P1-by-hand 'None => None|None => false|Err\(_\) => false|Err\(AllocError\)|Some\([a-z]+\) => Some\(|Ok\([a-z]+\) => Ok\(|Err\([a-z]+\) => (return )?Err\('
list P1-number '=> [0-9]+,$'
list P1-sentinel '= 4294967295|^ +0$|^ +n$'
# 2. twins: functions of one name in two crates, and functions or types that differ in a word
grep -rhoE --include=*.rt '^ *(pub(\(crate\))? )?fn [a-z_]+' crates/*/src | sed 's/.*fn //' | sort | uniq -d | sed 's/^/P2-same-name /'
list P2-suffix 'fn (read|show|poll|right|trigger|units|entries|value)_?[a-z]*[<(]'
list P2-name 'enum [A-Za-z]+Name|struct (Letter|Record)\b'
# 3. loops
list P3-index 'for [a-z]+ in [^ ]*\.\.'
list P3-loop '^ *(for|while|loop)\b'
list P3-counter '\+= 1;|saturating_add\(1\)'
# 4. equality, conversion and printing by hand
list P4-equality 'fn (same|serves|is_for|is)\b'
list P4-conversion 'fn (code|of|read|number|value|outcome_of|slope_named|right_named|kind_name|meaning)\b'
list P4-printing 'fn show'
# 5. facts that stand in three or more contracts, and parameters that travel together
grep -rhoE --include=*.rt 'requires ([a-z]+ )?\{.*\}' crates/*/src | sed 's/requires [a-z]* *{/{/' | sort | uniq -c | awk '$1 >= 3' | sed 's/^ */P5-fact /'
list P5-travel 'round: u32, from: u32|n: u32, source: u32, depth: u32|words: &\[&\[u8\]\], i: usize'
# 6. buffers with a length beside them
list P6-buffer '\[[A-Za-z0-9]+; [A-Z0-9]+\]'
list P6-used '\b(used|level|len|count): (usize|u32|u8),'
# 7. a switch on which step to run, tables of functions
list P7-switch 'match (kind|name|vote|\*?self|question)\b'
list P7-function 'fn\(|dyn '
