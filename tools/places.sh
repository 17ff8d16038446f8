#!/bin/sh
# Counts the places that docs/DESIGN-PASS.md speaks of, point by point. Run at the top of the repository.
S=$(ls crates/*/src/*.rt)
A=$(find crates -path '*/out' -prune -o -name Answers.antt -print)
lines() { grep -hE "$1" $S | wc -l; }
echo "1a own enums in place of Option and Result, and functions that hand them out: $(lines 'enum (Counted|Measured|Winner)\b|(->|:) (Counted|Measured|Winner)\b')"
echo "1b refusals handed on by a match: $(lines '(::Refused|Err)\((k|_)\) =>')"
echo "1c numbers and flags for kinds, sides, marks and refusals: $(lines '(mark|side|refusal): u32|left: bool|nested: bool|Winner::Neither')"
echo "2a functions whose bodies are the same but for names: $(python3 tools/twins.py | wc -l)"
echo "2b of the same kind by name (larger and lesser, gap and mark, file_stands and lists_stand ..): $(lines 'fn (lesser|larger|file_stands|lists_stand|check_components|check_lists|fill_top|fill_side|gather|write_table|first_to_height|first_to_width|first_smallest|first_outlines|first_group|likely_first)\b')"
echo "3 while loops: $(lines "^ *('[a-z]+: )?while ")"
echo "4a casts: $(lines ' as (u8|u16|u32|u64|usize)\b')"
echo "4b conversions, minima and maxima by own functions: $(lines '\b(wide|lesser|larger|get|long|narrow|shorter|count|low_byte|high_byte|word)\(')"
echo "4c derives of Clone and Copy alone: $(lines 'derive\(Clone, Copy\)')"
echo "4d true and false returned by hand: $(lines '^ +return (true|false);')"
echo "5 parameters for columns of a stack: $(lines '\b(h|w|g|heights|widths|seams): &(mut )?\[u16\]')"
echo "6 parameters and arrays for lists side by side: $(lines '\b(widths|heights|ends): &(mut )?\[u32\]|\[0u(16|32); (MOST_APART|LISTED)\]')"
echo "7 the switch over rules: $(lines '\bRule(::|,|;| )')"
echo "8 files of answers, answers, lines: $(echo "$A" | wc -l), $(cat $A | grep -cE '^pub .* : goal\.'), $(cat $A | wc -l)"
