# A place in a source, as compilers print it: the name and the line by the linemarkers before it (C99 6.10.4), the column
# in bytes from 1, words, the line, and a caret under the place. It is that of the byte `ccomp_offset`, which has the
# cause `ccomp_cause`; or where the identifier `ccomp_find` stands by itself, the first time, or the last one where
# `ccomp_last` is set, with the words `ccomp_words`. The status is 1 where there is no such place.
BEGIN {
  offset = ENVIRON["ccomp_offset"]
  name = ENVIRON["ccomp_find"]
  source = file = ENVIRON["ccomp_name"]
  cause = ENVIRON["ccomp_cause"]
  for (i = 128; i < 192; i++) continuing = continuing sprintf("%c", i)
  control = sprintf("%c", 127)
  for (i = 1; i < 32; i++) if (i < 9 || i > 10) control = control sprintf("%c", i)
}

# The place is in this line, at this column.
function keep(at) {
  line = $0
  column = at
  place_file = file
  place_number = number
}

# Looks for the name by itself in a part of the line that is no comment and no literal, with so many bytes before it.
function look(code, before,   at, front) {
  if (name == "") return
  while (at = index(code, name)) {
    if (at > 1) front = substr(code, at - 1, 1)
    before += at + length(name) - 1
    code = substr(code, at + length(name))
    if (front !~ /[A-Za-z0-9_]/ && code !~ /^[A-Za-z0-9_]/ && (!column || ENVIRON["ccomp_last"] != "")) keep(before - length(name) + 1)
    front = "_"
  }
}

# Follows comments and literals, so that no line inside a comment is taken for a linemarker.
function scan(text,   before, mark) {
  while (text != "") {
    if (in_comment) {
      if (!match(text, /\*\//)) return
      in_comment = 0
    } else {
      if (!match(text, /\/[*\/]|"([^"\\]|\\.)*"|\047([^\047\\]|\\.)*\047/)) {
        look(text, before)
        return
      }
      look(substr(text, 1, RSTART - 1), before)
      mark = substr(text, RSTART, 2)
      if (mark == "//") return
      in_comment = mark == "/*"
    }
    before += RSTART + RLENGTH - 1
    text = substr(text, RSTART + RLENGTH)
  }
}

function unescaped(text,   plain, code) {
  while (match(text, /\\([0-7][0-7][0-7]|.)/)) {
    code = substr(text, RSTART + 1, RLENGTH - 1)
    if (RLENGTH == 4) code = sprintf("%c", substr(code, 1, 1) * 64 + substr(code, 2, 1) * 8 + substr(code, 3, 1))
    plain = plain substr(text, 1, RSTART - 1) code
    text = substr(text, RSTART + RLENGTH)
  }
  return plain text
}

# The cause in words.
function words(  at) {
  at = substr(line, column, 1)
  if (cause == "badbyte") return "no token of C begins with this byte"
  if (cause == "opencomment") return "this comment is not closed"
  if (cause == "opentext" && at == "\"") return "this string is not closed on its line"
  if (cause == "opentext") return "this is not one character between quotes"
  if (cause == "badnumber" && at == "\\") return "this escape is unknown or above 255"
  if (cause == "badnumber") return "this is no integer constant of at most 64 bits"
  if (cause == "directive" && line ~ /^[ \t]*#[ \t]*pragma/) return "this pragma is outside the subset"
  if (cause == "directive") return "this line is for the preprocessor, which has to run first"
  if (cause == "toodeep") return "more than 128 constructs stand in one another"
  if (cause == "syntax") return is_last ? "syntax error: the text ends too early" : "syntax error: this cannot stand here"
  if (sub(/^outside /, "", cause)) return cause " is outside the subset"
  if (sub(/^broken /, "", cause)) return rules[cause] " (rule " cause ", docs/RULES.md)"
  return cause
}

# What is said of the place: of a name, the source too where the linemarkers name another file.
function said() {
  if (name == "") return "error: " words()
  return ENVIRON["ccomp_words"] (place_file == source ? "" : ", in " source)
}

# A linemarker names the next line.
function follow_marker(  marked, rest) {
  marked = substr($0, 1, RLENGTH)
  rest = substr($0, RLENGTH + 1)
  sub(/^[^0-9]*/, "", marked)
  number = marked - 1
  if (match(rest, /^[ \t]*"([^"\\]|\\.)*"/)) {
    file = substr(rest, 1, RLENGTH)
    sub(/^[ \t]*"/, "", file)
    file = unescaped(substr(file, 1, length(file) - 1))
  }
}

is_found {
  if ($0 !~ /^[ \t\r\f\v]*(#.*)?$/) is_last = 0
  next
}
{
  number++
  if (name == "" && offset + 0 <= start + length($0)) {
    is_found = is_last = 1
    keep(offset - start + 1)
    if (substr(line, column) !~ /^[ \t\r\f\v]*$/) is_last = 0
    next
  }
  start += length($0) + 1
  if (in_comment || $0 !~ /^[ \t]*#/) {
    scan($0)
  } else if (match($0, /^[ \t]*#[ \t]*(line[ \t]+)?[0-9]+/)) {
    follow_marker()
  }
}
END {
  if (!column) exit 1
  text = place_file ":" place_number ":" column ": " said()
  gsub("[" control "]", "?", text)
  print text
  sub(/\r$/, "", line)
  gsub("[" control "]", "?", line)
  print line
  under = substr(line, 1, column - 1)
  gsub("[" continuing "]", "", under)
  gsub(/[^\t]/, " ", under)
  print under "^"
}
