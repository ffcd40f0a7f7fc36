#!/bin/sh
# Checks include/ora.h, or the header that is given, against the crates: it has the functions of crates/capi/src/lib.rt,
# each with the same arguments in the same order, the refusals of crates/dna/src/refusals.rt with the same numbers, and
# as many slots of an answer, each where crates/capi/specs/Slots.antt has it.
# The contracts speak of arguments by name, and a C program hands them over by place; so this is what joins the two.
# Exit status: 0 they agree; 1 they do not, and what differs is printed; 2 a file is not there.
set -u

root=$(CDPATH='' cd -- "$(dirname -- "$0")/.." && pwd) || exit 2
header=${1:-$root/include/ora.h}
code=$root/crates/capi/src/lib.rt
refusals=$root/crates/dna/src/refusals.rt
slots=$root/crates/capi/specs/Slots.antt
for file in "$header" "$code" "$refusals" "$slots"; do
  if [ ! -r "$file" ]; then
    echo "check_header: there is no file $file" >&2
    exit 2
  fi
done
work=$(mktemp -d) || exit 2
trap 'rm -rf "$work"' EXIT

# The functions of the crate as C declares them.
awk '
function argument(text,    name, type) {
  name = text; sub(/:.*/, "", name); gsub(/ /, "", name)
  type = text; sub(/^[^:]*: */, "", type); sub(/ +$/, "", type)
  if (type == "u64") return "uint64_t " name
  if (type == "&[u8]") return "const uint8_t *" name ", size_t " name "_len"
  if (type == "&[u32]") return "const uint32_t *" name ", size_t " name "_len"
  if (type == "&mut [u8]") return "uint8_t *" name ", size_t " name "_len"
  if (type == "&mut [u32]") return "uint32_t *" name ", size_t " name "_len"
  if (type == "&mut [u64; 16]") return "uint64_t " name "[ORA_ANSWER_SLOTS]"
  return "no C type of " type
}
/^pub extern "C" fn / { open = 1; text = "" }
open { text = text " " $0 }
open && /\) -> / {
  open = 0
  name = text; sub(/^.* fn /, "", name); sub(/\(.*/, "", name)
  given = text; sub(/^[^(]*\(/, "", given); sub(/,? *\) -> .*/, "", given)
  answer = text; sub(/^.*\) -> */, "", answer); sub(/ *\{?$/, "", answer)
  count = split(given, parts, /, */)
  line = (answer == "u64" ? "uint64_t " : "no C type of " answer " ") name "("
  for (k = 1; k <= count; k++) line = line (k > 1 ? ", " : "") argument(parts[k])
  print line ");"
}' "$code" | sort >"$work/functions"

# Those of the header, each on one line.
awk '
/^uint64_t ora_/ { open = 1; text = "" }
open { line = $0; sub(/^ +/, "", line); text = text (text == "" ? "" : " ") line }
open && /;$/ { open = 0; print text }' "$header" | sort >"$work/declared"

sed -n 's/^    \([A-Z][A-Za-z0-9]*\) = \([0-9]*\),$/\1 = \2/p' "$refusals" |
  sed 's/\([A-Z]\)/_\1/g; y/abcdefghijklmnopqrstuvwxyz/ABCDEFGHIJKLMNOPQRSTUVWXYZ/; s/^/ORA/' | sort >"$work/numbers"
sed -n '/^enum ora_refusal {/,/^};/s/^ *\(ORA_[A-Z0-9_]* = [1-9][0-9]*\),\{0,1\}.*/\1/p' "$header" | sort >"$work/named"

# The slots of an answer: as many as the crate's array has, and in each what the definitions put there.
{
  sed -n 's/^.*answer: &mut \[u64; \([0-9]*\)\].*/ORA_ANSWER_SLOTS = \1/p' "$code" | sort -u
  awk '
  BEGIN {
    split("number REFUSAL block BLOCK_INDEX read READ_INDEX blocks BLOCKS bytes BLOCK_LENGTH offset OFFSET size LENGTH " \
      "reads READS letters LETTERS entries ENTRIES differences DIFFERENCES top TOP", pairs, " ")
    for (k = 1; pairs[k] != ""; k += 2) name[pairs[k]] = pairs[k + 1]
  }
  / =$|^section_slots span = / { open = /^slots outcome|^section_slots span/; slot = -1 }
  open && /^ |^section_slots span = / {
    line = $0; sub(/^section_slots span = /, "", line)
    count = split(line, parts, /∷/)
    for (k = 1; k <= count; k++) {
      if (parts[k] ~ /^ *$/ || parts[k] ~ /replicate/) continue
      slot++
      fields = split(parts[k], words, /[^.a-z]+/)
      for (f = 1; f <= fields; f++) {
        field = words[f]
        if (sub(/^.*[.]/, "", field))
          print "ORA_" (field in name ? name[field] : "no name of " field) " = " slot
      }
    }
  }' "$slots"
} | sort >"$work/slots"
{
  sed -n 's/^#define ORA_ANSWER_SLOTS \([0-9]*\)$/ORA_ANSWER_SLOTS = \1/p' "$header"
  sed -n '/^enum ora_slot {/,/^};/s/^ *\(ORA_[A-Z0-9_]* = [0-9]*\),\{0,1\}.*/\1/p' "$header"
} | sort >"$work/declared_slots"

status=0
for pair in functions:declared numbers:named slots:declared_slots; do
  if ! diff "$work/${pair%:*}" "$work/${pair#*:}" >"$work/difference" || ! [ -s "$work/${pair%:*}" ]; then
    echo "check_header: ${header#"$root"/} differs from the crates (< the crates have, > the header has):" >&2
    cat "$work/difference" >&2
    status=1
  fi
done
[ "$status" -eq 0 ] && echo "header: $(wc -l <"$work/declared") functions, $(wc -l <"$work/named") refusals and" \
  "the slots of an answer are those of the crates"
exit "$status"
