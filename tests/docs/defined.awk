# What the sources define, one a line: `name NAME`, and `fn NAME (PARAMETERS)` for a function of the crates or the header.

function tell(name) {
  if (name ~ /^[A-Za-z_]/) print "name " name
}

# the parameters' names of a whole signature, a comma after each
function parameters(text, rattle,    parts, n, i, list, word) {
  sub(/^[^(]*\(/, "", text)
  sub(/\)[^)]*$/, "", text)
  gsub(/\[[^]]*\]/, "", text)
  while (sub(/<[^<>]*>/, "", text)) { }
  n = split(text, parts, ",")
  for (i = 1; i <= n; i++) {
    word = parts[i]
    if (rattle) sub(/:.*/, "", word)
    gsub(/^[ \t]+|[ \t]+$/, "", word)
    sub(/^.*[ *&]/, "", word)
    if (word == "" || word == "void") continue
    list = list word ","
    tell(word)
  }
  return list
}

function signature(text, rattle,    name, list) {
  name = text
  sub(/\(.*/, "", name)
  sub(/<[^>]*>$/, "", name)
  sub(/^.*[ *]/, "", name)
  tell(name)
  list = parameters(text, rattle)
  if (FILENAME !~ /^tests/) print "fn " name " (" list ")"
}

FNR == 1 { held = ""; variants = 0; comment = 0; antt = FILENAME ~ /\.antt$/; rattle = FILENAME ~ /\.rt$/ }

# antt: what a type is given to, data, records, constructors and fields; a name with places has its words too
antt {
  if ($0 ~ /^ *--/) next
  line = $0
  if (match(line, /(data|record) +[A-Za-z][A-Za-z0-9_-]*/)) {
    name = substr(line, RSTART, RLENGTH)
    sub(/^[a-z]+ +/, "", name)
    tell(name)
    next
  }
  at = index(line, " : ")
  if (at == 0 && line ~ / :$/) at = length(line) - 1
  if (at == 0) next
  line = substr(line, 1, at - 1)
  # the place of an argument
  gsub(/\342\227\214/, " ", line)
  if (line ~ /[^A-Za-z0-9_ '-]/) next
  n = split(line, words, " ")
  for (i = 1; i <= n; i++) tell(words[i])
  next
}

# Rattle and C without comments
{
  line = $0
  sub(/\/\/.*/, "", line)
  if (comment) {
    if (!sub(/^.*\*\//, "", line)) next
    comment = 0
  }
  gsub(/\/\*([^*]|\*[^\/])*\*\//, "", line)
  if (sub(/\/\*.*/, "", line)) comment = 1
}

# a signature may go over several lines
held != "" {
  held = held " " line
  if (line ~ /\)/) { signature(held, rattle); held = "" }
  next
}

rattle {
  if (match(line, /(^|[ \t])fn +[a-z_0-9]+(<[^>]*>)?\(.*/)) {
    text = substr(line, RSTART, RLENGTH)
    sub(/^.*fn +/, "", text)
    sub(/ *->.*/, "", text)
    if (text ~ /\)/) signature(text, 1); else held = text
    next
  }
  if (match(line, /(struct|enum|trait|const|mod) +[A-Za-z_0-9]+/)) {
    name = substr(line, RSTART, RLENGTH)
    sub(/^[a-z]+ +/, "", name)
    tell(name)
    variants = line ~ /enum/ && line !~ /\}/
    next
  }
  # a clause's own name
  if (match(line, /(requires|ensures)\*? +[a-z_0-9]+ *\{/)) {
    name = substr(line, RSTART, RLENGTH)
    sub(/^[a-z]+\*? +/, "", name)
    sub(/ *\{$/, "", name)
    tell(name)
    next
  }
  if (line ~ /^}/) variants = 0
  if (variants && match(line, /[A-Z][A-Za-z0-9]*/)) tell(substr(line, RSTART, RLENGTH))
  if (match(line, /[a-z_0-9]+:[^:]/)) { name = substr(line, RSTART, RLENGTH); sub(/:.*/, "", name); tell(name) }
  next
}

/^#define/ { name = $2; sub(/\(.*/, "", name); tell(name); next }

# the header's constants
FILENAME ~ /^include/ {
  for (rest = line; match(rest, /HM_[A-Z0-9_]+/); rest = substr(rest, RSTART + RLENGTH)) tell(substr(rest, RSTART, RLENGTH))
}

# C functions begin in the first column
line ~ /^[a-z][A-Za-z_0-9 ]*[ *][a-z_0-9]+\(/ {
  if (line ~ /\)/) signature(line, 0); else held = line
}
