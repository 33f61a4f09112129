#!/bin/sh
# Lists the places that docs/DESIGN-PASS.md counts, point by point: run at the top of the repository.
# A line is one place that the words below find; which of them are places to change is said on that page.
cd "$(dirname "$0")/../crates" || exit 1

# The sources without the lines that only the check reads.
code() {
    find ./*/src -name '*.rt' | sort | xargs grep -nE "$1" | grep -vE ':[0-9]+:\s*(//|ghost|requires|ensures)'
}

part() {
    echo "== $1"
    code "$2"
}

part '1a an answer within an answer' 'Option<Option<'
part '1b a flag beside a value' '\(bool, |, bool\)'
part '1c enums' '^\s*(pub )?enum '
part '1d numbers for kinds' '^\s+[0-9]+ => '
part '1e given up by hand where ? would do' 'return (None|Ok\(None\)|Err\(.*\));'
part '2a the same name for several sizes or widths' 'fn \w*(u16|u32|u64|narrow|wide)\w*[<(]'
part '2b bodies of one impl for each width' '^impl \w+ for (i32|i64|u16|u32|u64) '
part '2c one name for each number of arguments' 'fn (one|two|three|four|one_letter|two_letters)\('
part '3a counted by an index' 'for \w+ in 0\.\.'
part '3b while' '^\s*while '
part '3c for with a body that pushes or counts' 'for [^_]* in [^0]'
part '4a conversions by as' ' as (u8|u16|u32|u64|u128|usize|i32|i64|char)\b'
part '4b printing by hand' 'format!\('
part '4c From impls' 'impl(<[^>]*>)? (From|TryFrom|Display|fmt::Display)'
part '5b parameters that travel together' '^\s+(text: bool|rows: usize|offsets: Offsets|narrow: &mut|wide: &mut|columns: &\[Entry)'
part '6a fixed buffers' '\[0[a-z0-9]*; [0-9]+\]'
part '7 which step, by a word or a flag' 'match (section|unit|is_wide|letter|width) |if (is_wide|(format|self)\.wide) '

# Facts in clauses, which the words above leave out.
echo '== 5a a fact repeated in clauses'
for fact in 'part\.now ≤ 65536' 'e ≡ NoMemory' '≤ 2147483647' 'min\(2_147_483_647\)'; do
    echo "$fact: $(find ./*/src -name '*.rt' | xargs cat | grep -cE "$fact")"
done
