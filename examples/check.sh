#!/bin/sh
# check.sh LIBRARY FOLDER: compiles the examples against include/ora.h and the static library, into
# the folder, runs them and compares what they print with data/*.txt. Needs a C compiler (CC, else
# cc). Status 1 where something differs or does not compile, 2 where a tool or a file is missing.
set -u
here=$(dirname "$0")
library=${1:?} folder=${2:?}
data=$here/data
cc=${CC:-cc}
missing() {
  echo "examples: $1" >&2
  exit 2
}
command -v "$cc" >/dev/null 2>&1 \
  || missing "a C compiler is missing: there is no command '$cc' on the PATH"
[ -f "$library" ] || missing "$library is missing: run 'make library' first"
mkdir -p "$folder" || exit 2

for name in list round_trip; do
  "$cc" -std=c99 -Wall -Wextra -Wpedantic -Werror -Wconversion -O2 -I "$here/../include" \
    "$here/$name.c" "$library" -o "$folder/$name" || exit 1
done
cxx=${CXX:-c++}
if command -v "$cxx" >/dev/null 2>&1; then
  "$cxx" -std=c++98 -Wall -Wextra -fsyntax-only -x c++ "$here/../include/ora.h" || exit 1
else
  echo "examples: there is no command '$cxx' on the PATH, so ora.h is not tried as C++" >&2
fi

# expect STATUS TEXT COMMAND...: the command prints what the file TEXT holds.
expect() {
  status=$1 text=$2
  shift 2
  "$@" >"$folder/printed"
  got=$?
  [ "$got" -eq "$status" ] || { echo "examples: $*: status $got, not $status" >&2; exit 1; }
  cmp "$text" "$folder/printed" >&2 || { echo "examples: $* printed something else" >&2; exit 1; }
}

list=$folder/list
expect 0 "$data/one_read.txt" "$list" "$data/one_read.reference" "$data/one_read.blocks"
expect 0 "$data/sample.txt" "$list" "$data/sample.reference" "$data/sample.blocks"
expect 1 "$data/refused.txt" "$list" "$data/sample.reference" "$data/refused.blocks"
expect 0 "$data/round_trip.txt" "$folder/round_trip"

echo "refused 1 0 0" >"$folder/text"
expect 1 "$folder/text" "$list" /dev/null "$data/sample.blocks"
echo "end blocks 0" >"$folder/text"
expect 0 "$folder/text" "$list" "$data/sample.reference" /dev/null

# A folder cannot be read: no result is printed.
: >"$folder/text"
expect 2 "$folder/text" "$list" "$folder" "$data/sample.blocks" 2>/dev/null
expect 2 "$folder/text" "$list" "$data/sample.reference" "$folder" 2>/dev/null

# More blocks than the window of 32 KiB holds.
: >"$folder/blocks"
: >"$folder/text"
for _ in 1 2 3 4 5 6 7 8 9 10; do
  for _ in 1 2 3 4 5; do
    cat "$data/sample.blocks" >>"$folder/blocks"
    sed '$d' "$data/sample.txt" >>"$folder/text"
  done
done
echo "end blocks 150" >>"$folder/text"
expect 0 "$folder/text" "$list" "$data/sample.reference" "$folder/blocks"
echo "examples: the listings are as stored"
