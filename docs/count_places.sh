#!/bin/sh
# Counts in src/ the places that docs/DESIGN-PASS.md speaks of, point by point. `docs/count_places.sh -l` lists them.
set -u
root=$(CDPATH='' cd -- "$(dirname -- "$0")/.." && pwd) || exit 2
cd "$root" || exit 2

count() { # name, pattern
  if [ "${list:-}" ]; then
    echo "== $1"
    grep -rnE "$2" crates/*/src
  else
    printf '%-58s %4d\n' "$1" "$(grep -rhE "$2" crates/*/src | wc -l)"
  fi
}
[ "${1:-}" = -l ] && list=1

count '1 variants of own enums like Option and Result' '^ +(Refused|Failed|Bad|Invalid)(\(|,)'
count '1 refusals as constants' '^pub const [A-Z0-9_]+: u32 = [0-9]+;.*$|^use dna::refusals::\{?[A-Z]{2}'
count '1 functions that answer a number of refusal, or 0' '^(pub )?fn (block_number|file_number|encode_number|lent_fault|header_fault|table_fault|lengths_fault|block_fault|local_fault)\('
count '1 values that stand for none, kinds as numbers' '^(pub )?const (NO_NUMBER|NO_LENGTH|STRINGS|STEPS_?(8|16|32)):'
count '2 functions named by a width' 'fn [a-z_0-9]*[a-z_](2|4|8|16|32|64)\('
count '2 functions named by a strand' 'fn [a-z_]+_(forward|reverse)\('
count '2 printing helpers of a program' 'fn (put_text|put_word|put_number|put_bytes|put_numbers|end_line)\('
count '3 loops over an index' '^ *while ([a-z_]+( \+ 1)? <=? |0 < |[a-z_]+ \+ 8 <= )'
count '3 loops of any other kind with while' '^ *while (!|byte|2 <=|8 <=|WORD)'
count '4 conversions by functions of our own' '(wide(16|32|64)|size(8|16|32|64))\('
count '4 comparisons and digits by hand' 'fn (larger|smaller|differs|is_digit|difference|bit|forward_bit|byte64)\('
count '5 tables of words as parameters' '(forward|reverse|pair)_table: &\[|[^_]table: &\[u64; 256\]'
count '5 clauses on a table of words' '_?table\.now ≡ (word_table|pair_words)'
count '5 clauses that the table of contents is there' 'table_length ≤ length input\.now'
count '5 clauses that what is lent earns none of 1 and 30 to 33' 'lent_number bases reference\.now$|lent_number bases reference\.now \('
count '5 clauses of a record in its section' '\(previous < 2 \^ 32\)|× \(bases < 2 \^ 32\)'
count '5 proposals as four parameters' '^ +positions?: (&\[u32\]|u32),'
count '6 a read as letters, from, to' '^ +from: usize,$|letters: &\[u8\], from: usize, to: usize'
count '6 parallel arrays of columns' '(places|values|kinds|sizes): &(mut )?\[(usize|u64|u8)\]'
count '6 a list with its length beside' '(list: &\[u8\], entries: usize|^ +entries: usize,)'
count '7 flags that choose what a function does' '\b(count|write|first|digits|fixed|forward|unsupported|equal): bool'
