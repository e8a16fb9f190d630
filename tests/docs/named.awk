# The spans in backticks of the documents, each checked against `names` (from defined.awk, with the paths) and `known`.

function fault(what) {
  printf "%s:%d: %s\n", FILENAME, began, what
  faults++
}

function is_path(text) {
  sub(/\/$/, "", text)
  return (text in path) || (("crates/" text) in path) || (("crates/" text ".antt") in path) || is_edit(text)
}

# CRATE/NAME: an edit of that crate
function is_edit(text) {
  sub(/\//, "/must-fail/", text)
  return ("crates/" text ".edit") in path
}

# a word with an ellipsis stands for any name of its form
function has_form(word,    name) {
  gsub(/\001/, "[A-Za-z0-9_-]+", word)
  for (name in defined) if (name ~ ("^" word "$")) return 1
  return 0
}

function check_words(text,    words, n, i, word) {
  gsub(/\342\200\246/, "\001", text)
  gsub(/[^A-Za-z0-9_\001-]/, " ", text)
  n = split(text, words, " ")
  for (i = 1; i <= n; i++) {
    word = words[i]
    gsub(/^-+|-+$/, "", word)
    if (word ~ /^[0-9]*$/ || word ~ /^[A-Za-z]$/ || word ~ /^\001*$/) continue
    checked++
    if (!(word in defined) && !(word in allowed) && !(word ~ /\001/ && has_form(word))) {
      gsub(/\001/, "\342\200\246", word)
      fault("no " word)
    }
  }
}

# NAME(PARAMETERS): a function of these parameters, in their order
function check_call(text,    name, list) {
  name = text
  sub(/\(.*/, "", name)
  sub(/^.*::/, "", name)
  checked++
  if (!(name in functions)) { fault("no function " name); return }
  list = text
  sub(/^[^(]*\(/, "", list)
  sub(/\)$/, "", list)
  gsub(/&mut |&| /, "", list)
  if (list != "") list = list ","
  if (list == "..,") return
  if (index(functions[name], "(" list ")") == 0) {
    list = functions[name]
    gsub(/,\)/, ")", list)
    fault(text ", but " name " takes " list)
  }
}

function check(text) {
  gsub(/^ +| +$/, "", text)
  if (text in allowed) { checked++; return }
  if (text ~ /^[A-Za-z0-9_.\/+-]*\/[A-Za-z0-9_.\/+-]*$/ || text ~ /^[A-Za-z0-9_.-]+\.(md|txt|antt|rt|c|h|edit|out)$/) {
    checked++
    if (!is_path(text)) fault("no file or folder " text)
  } else if (text ~ /^[a-z][a-z0-9_]*(::[a-z0-9_]+)*\([^()]*\)$/)
    check_call(text)
  else
    check_words(text)
}

BEGIN {
  while ((getline line < names) > 0) {
    kind = line
    sub(/ .*/, "", kind)
    sub(/^[a-z]+ /, "", line)
    if (kind == "path") {
      path[line]
      sub(/^.*\//, "", line)
      defined[line]
      sub(/\.[a-z]+$/, "", line)
      defined[line]
    } else if (kind == "fn") {
      name = line
      sub(/ .*/, "", name)
      sub(/^[^ ]* /, "", line)
      functions[name] = functions[name] line
    } else
      defined[line]
  }
  while ((getline line < known) > 0)
    if (line !~ /^#/ && line != "") allowed[line]
}

FNR == 1 { if (open) fault("a backtick that is not closed"); open = 0; fenced = 0 }
/^```/ { fenced = !fenced; next }
fenced { next }
/^$/ && open { fault("a backtick that is not closed"); open = 0 }

# odd pieces of a line stand outside, even ones within; a span may go on in the next line
{
  n = split($0, pieces, "`")
  for (i = 1; i <= n; i++) {
    if (i > 1) {
      if (open) check(span)
      else { span = ""; began = FNR }
      open = !open
    }
    if (open) span = span (span == "" ? "" : " ") pieces[i]
  }
}

END {
  if (open) fault("a backtick that is not closed")
  printf "docs: %d names checked, %d missing\n", checked, faults
  if (checked == 0 || faults > 0) exit 1
}
