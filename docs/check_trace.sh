#!/bin/sh
# Checks docs/TRACE.md, or the page that is given, against the tree. From the first heading of level 2 on, what stands
# in backticks is one of these, and nothing else:
#   a path (it has a slash): it exists, below crates/ unless it begins with crates/, rust/ or docs/;
#   a contract, crate::function: a public function of crates/CRATE/src;
#   after the word "crate" or "program", a crate: crates/NAME exists;
#   a name: the last path before it, in its cell of the table, declares it.
# A file declares its definitions, fields, constructors, theorems, functions, types, constants and tests; a page (.md)
# its headings and the first cells of its rows; any other file every word in it.
# Exit status: 0 all is there; 1 something is missing, each named with file and line; 2 the page is not there.
set -u

if [ $# -gt 1 ]; then
  echo "usage: docs/check_trace.sh [PAGE]" >&2
  exit 2
fi
page=${1:-}
case $page in
  '' | /*) ;;
  *) page=$PWD/$page ;;
esac
root=$(CDPATH='' cd -- "$(dirname -- "$0")/.." && pwd) || exit 2
cd -- "$root" || exit 2
if [ -z "$page" ]; then
  page=docs/TRACE.md
fi
if [ ! -f "$page" ] || [ ! -r "$page" ]; then
  echo "trace: there is no page $page" >&2
  exit 2
fi

LC_ALL=C awk '
# ---- What a file declares

function declare(file, name) {
  if (name != "") declared[file, name] = 1
}

# A definition, field, constructor or theorem: the names before a colon, without parameters.
function read_antt(file, line,    head, count, words, k) {
  sub(/^ +/, "", line)
  gsub(/«|»/, "", line)
  if (line ~ /^--/ || line ~ /^(use|let|module) /) return
  while (sub(/^(pub|unfoldable|abbrev) +/, "", line)) { }
  if (line ~ /^(record|data|mod) /) {
    split(line, words, /[ ({]+/)
    declare(file, words[2])
    return
  }
  k = index(line, " : ")
  if (k == 0 && line ~ / :$/) k = length(line) - 1
  if (k == 0) return
  head = substr(line, 1, k - 1)
  gsub(/[{][^}]*[}]/, "", head)
  if (head ~ /[()=,.;"]|λ|→/) return
  count = split(head, words, / +/)
  for (k = 1; k <= count; k++) declare(file, words[k])
}

# A function, type, constant or module; inside a struct or an enum, its fields or its cases.
function read_code(file, line,    words) {
  if (line ~ /^ *\/\//) return
  if (line ~ /^ *}/) inside = ""
  sub(/^ +/, "", line)
  sub(/^pub(\([a-z]+\))? +/, "", line)
  sub(/^extern "C" +/, "", line)
  while (sub(/^(unsafe|async|const) +fn /, "fn ", line)) { }
  if (line ~ /^(fn|struct|enum|trait|type|const|static|mod) /) {
    split(line, words, /[^A-Za-z0-9_]+/)
    declare(file, words[2])
    if (line ~ /^(struct|enum) / && line ~ /[{] *$/) inside = words[1]
    return
  }
  if (inside == "struct" && line ~ /^[a-z_0-9]+:/) declare(file, substr(line, 1, index(line, ":") - 1))
  if (inside == "enum" && match(line, /^[A-Z][A-Za-z0-9]*/)) declare(file, substr(line, 1, RLENGTH))
}

# A heading, or the first cell of a row.
function read_page(file, line,    cells) {
  if (sub(/^#+ +/, "", line)) {
    declare(file, line)
  } else if (line ~ /^\|/) {
    split(line, cells, / *\| */)
    declare(file, cells[2])
  }
}

function read_text(file, line,    count, words, k) {
  count = split(line, words, /[^A-Za-z0-9_]+/)
  for (k = 1; k <= count; k++) declare(file, words[k])
}

function read_file(file,    line) {
  if (file in was_read) return
  was_read[file] = 1
  inside = ""
  while ((getline line < file) > 0) {
    if (file ~ /\.antt$/) read_antt(file, line)
    else if (file ~ /\.(rt|rs)$/) read_code(file, line)
    else if (file ~ /\.md$/) read_page(file, line)
    else read_text(file, line)
  }
  close(file)
}

# ---- What the page says

function missing(what) {
  print page ":" FNR ": " what
  faults++
}

# Paths have no character that a shell would take apart.
function exists(test, path) {
  if (!((test, path) in known)) known[test, path] = (system("[ -" test " " path " ]") == 0)
  return known[test, path]
}

function whole_path(token) {
  sub(/\/$/, "", token)
  return token ~ /^(crates|rust|docs)(\/|$)/ ? token : "crates/" token
}

function check_contract(token,    count, parts, command, found) {
  contracts++
  count = split(token, parts, /::/)
  if (!exists("d", "crates/" parts[1] "/src")) {
    missing("there is no crate " parts[1] " for the contract " token)
    return
  }
  if (!(token in known_contract)) {
    command = "grep -rhE \"^ *pub (extern .C. )?fn " parts[count] "[(<]\" crates/" parts[1] "/src"
    found = ""
    command | getline found
    close(command)
    known_contract[token] = (found != "")
  }
  if (!known_contract[token]) missing("crates/" parts[1] "/src has no public function " parts[count] " (" token ")")
}

function check_token(token, before) {
  if (token ~ /^[A-Za-z0-9_.-]+(\/[A-Za-z0-9_.-]*)+$/) {
    paths++
    current = whole_path(token)
    if (!exists("e", current)) {
      missing("there is no " current)
      current = "?"
    }
  } else if (token ~ /^[a-z0-9_]+(::[a-z0-9_]+)+$/) {
    check_contract(token)
  } else if (before ~ /([Cc]rate|[Pp]rogram) $/) {
    crates++
    if (token !~ /^[a-z0-9_]+$/ || !exists("d", "crates/" token)) missing("there is no crate " token)
  } else if (current == "") {
    missing("the name " token " follows no path")
  } else if (current != "?") {
    names++
    read_file(current)
    if (!((current, token) in declared)) missing(current " does not declare " token)
  }
}

# The text between backticks is every second piece of a cell.
function check_cell(cell,    count, pieces, k) {
  current = ""
  count = split(cell, pieces, /`/)
  if (count > 0 && count % 2 == 0) missing("a backtick has no partner")
  for (k = 2; k < count; k += 2) check_token(pieces[k], pieces[k - 1])
}

BEGIN { page = ARGV[1] }

/^## / { begun = 1 }

begun {
  if ($0 ~ /^\|/) {
    cell_count = split($0, cells, /\|/)
    for (cell = 1; cell <= cell_count; cell++) check_cell(cells[cell])
  } else {
    check_cell($0)
  }
}

END {
  if (paths == 0) {
    print page ": there is no path on the page"
    faults++
  }
  printf "trace: %s: %d paths, %d names, %d contracts, %d crates; %d missing\n",
    page, paths, names, contracts, crates, faults
  exit faults > 0
}
' "$page"
