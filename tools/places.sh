#!/usr/bin/env bash
# Counts, in src/ of every crate, the places that docs/DESIGN-PASS.md speaks of: a line a command, with what it found.
#
#     tools/places.sh [-v] [ROOT]     -v also prints the lines found
set -uo pipefail
show=
[ "${1:-}" = -v ] && show=1 && shift
cd "${1:-$(dirname "$0")/..}"

# What it is, and a pattern for lines of code in src/.
count() {
    local found
    found=$(grep -rnE "$2" crates/*/src --include=*.rt | grep -vE '^[^:]*:[0-9]+:\s*//')
    printf '%4d  %s\n' "$(grep -c . <<<"$found")" "$1"
    [ -n "$show" ] && sed 's/^/          /' <<<"$found"
}

echo "1. own enums, flags with a value, numbers for kinds and refusals"
count 'enums'                                            '^(pub )?enum '
count 'fields that are flags'                            '^    (pub )?[a-z_]+: bool,'
count 'byte or word constants that name cases'           '^(pub )?const [A-Z_]+: u(8|32) = [0-9]+;'
count 'arms and tests by a number for a kind'            '^ +[0-9]+ => |\b(how|need|sort|kind|verdict) (==|!=) '
count 'functions that give a refusal as a number'        'fn [a-z_]*(refusal|refused)[a-z_]*\(.*-> u32'
count 'tests of a refusal number'                        '(number\(\)|refused|checked|buffers|diagram|number) != 0'
count 'fields and parameters that are a number of an answer' '\b(number|verdict): u32\b'
echo "3. loops that count by hand"
count 'while and loop'                                   '^ *(while|loop)\b'
echo "4. conversion, equality and printing by hand"
count 'functions that only convert, compare or print'    'fn (number|is|equal_bits|kind_of|wide|byte_at|pair_at|flat_[a-z]+|only_number|judged|unchanged|worked|pair_of|value_of|least|lower|last_digit|put_decimal|clear|put|entry_at)\('
echo "5. what travels together, and facts in many contracts"
count 'functions with table and scratch'                 'fn .*t: &mut \[Cell\], (w: &mut \[u32\]|s: &mut Scratch)|^ +(w: &mut \[u32\]|s: &mut Scratch),'
count 'functions with marks'                             'marks: &mut (\[u32\]|Marks)'
count 'functions with sheet and entry number'            's: &\[u8\], i: usize|^ +s: &\[u8\],'
count 'functions with number of a diagram as u32'        '\b(a|b|c|n|x|y|r|low|high|must|may|carry|half): u32\b'
count 'clauses with Alive'                               'Alive '
count 'clauses with check s.now ≡ 0'                     'check s\.now ≡ 0'
count 'clauses with f < 256'                             'f < 256'
count 'clauses with a limit below 2^32'                  'limit < 4294967296'
count 'clauses with room for marks'                      '1048576 ≤ 32 \* (length marks|N)'
count 'clauses of more than 200 characters'              '^ +(requires|ensures).{200,}'
echo "6. buffers with a length beside"
count 'out with at'                                      'out: &mut \[u8\], at: usize'
count 'arrays with a count in a struct'                  '^ +(pub )?(count|width): usize,'
echo "7. switches on which step to run"
count 'match'                                            '\bmatch\b'
