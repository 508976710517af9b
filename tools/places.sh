#!/bin/sh
# Prints the lines in which the points of docs/DESIGN-PASS.md look for places, a heading and a count
# for each point. Run it at the top of a checkout; a point's number as the argument prints that alone.
only=$1
src='crates/*/src'

point() {
    [ -z "$only" ] || [ "$only" = "$1" ] || { cat > /dev/null; return; }
    lines=$(cat)
    printf '== point %s: %s (%s)\n%s\n' "$1" "$2" "$(printf '%s' "$lines" | grep -c .)" "$lines"
}

grep -rnE '^ *(pub(\([a-z]+\))? )?enum ' $src | point 1 'enums'
grep -rnE '\b[a-z_]+: bool' $src | point 1 'flags'
grep -rnE '^pub fn .*\(\) -> bool' $src | point 1 'laws that answer a flag'
grep -rnE 'const [A-Z_]+: u8 = |\bkind: u32' $src | point 1 'number codes'
grep -rhoE '\bfn [a-z_]+' $src | sort | uniq -c | awk '$1 > 1' | point 2 'function names that stand more than once'
grep -rnE '^ *(pub(\([a-z]+\))? )?const [A-Z_]+: [A-Za-z]' $src | point 2 'constants'
grep -rnE 'for [a-z_]+ in [^{]*\.\.|\b(while|loop) |(\+|-)= 1;|enumerate\(\)' $src | point 3 'loops and counts'
grep -rnE '\bas (u8|u16|u32|u64|usize)\b' $src | point 4 'casts'
grep -rnE '^ *(pub(\([a-z]+\))? )?fn ([a-z_]*(text|line|_of|into_[a-z]+)|order|wide|answer|number|mask|is_in_service|holds)\b' $src | point 4 'conversions and texts'
grep -rnE '=> unreachable\(\)|else \{ unreachable\(\)|^ *unreachable\(\)$' $src | point 4 'unwraps'
python3 tools/clauses.py | point 5 'clauses that stand in three functions or more'
grep -rnE '^ *(pub(\([a-z]+\))? )?[a-z_]+: \[[A-Za-z0-9]+; [A-Z0-9a-z_]+\],|^ *([a-z]+_)?(count|start): (u8|usize),' $src | point 6 'tables and counts in types'
grep -rnE ': bool|\bdyn |\bfn\(|impl Fn|: F\b|^ *(pub(\([a-z]+\))? )?fn [a-z_]+\(.*engine' $src | point 7 'switches and functions as values'
find crates/*/proofs -name Answers.antt | sort | xargs grep -cE '^pub [a-z]' | point 8 'answers, by file'
