# Turns the text that ccomp gave into one for avr-gcc: events become calls of ccomp/runtime.h, handlers keep their
# vectors where the program is linked as a whole, and tables that are only subscripted go to flash.
#
#   awk -v flash=1 -v tables=FILE -v events=NAMES -f back.awk OUT OUT
#
# The text is read twice. `flash` says whether the chip has const objects in RAM and the compiler `__flash`; FILE gets a
# line for each const object, `NAME,WHERE,WHY`, and NAMES are the events, with blanks between them.

BEGIN {
  FS = "\n"
  count = split(events, words, " ")
  for (i = 1; i <= count; i++) is_event[words[i]] = 1
}

# The text with its literals emptied, so that no name is looked for in them.
function bare(text,   left) {
  while (match(text, /"([^"\\]|\\.)*"|\047([^\047\\]|\\.)*\047/)) {
    left = left substr(text, 1, RSTART - 1) (substr(text, RSTART, 1) == "\"" ? "\"\"" : "0")
    text = substr(text, RSTART + RLENGTH)
  }
  return left text
}

# How the declared table is declared: its name and the number of its bounds, or why it stays where it is.
function declared(text,   head, name) {
  head = text
  sub(/ = .*$/, "", head)
  sub(/;$/, "", head)
  if (!match(head, /[A-Za-z_][A-Za-z_0-9]*(\[[0-9A-Za-z]*\])*$/)) return ""
  name = substr(head, RSTART)
  bounds = gsub(/\[[0-9A-Za-z]*\]/, "", name)
  kind = substr(head, 1, RSTART - 1)
  return name
}

# Whether each mention of the name in the text is a subscript of all its bounds that is read.
function is_subscripted(text, name, bounds,   left, after, inner, i, depth, mark) {
  while (match(text, "(^|[^A-Za-z_0-9])" name "([^A-Za-z_0-9]|$)")) {
    left = substr(text, 1, RSTART)
    if (RSTART == 1 && substr(text, 1, length(name)) == name) left = ""
    after = substr(text, length(left) + length(name) + 1)
    # An operand of `&`, unless something stands in front of that which it joins.
    sub(/[ (]*$/, "", left)
    if (left ~ /&$/ && left !~ /[A-Za-z_0-9)\]] ?&$/) return 0
    for (i = 1; i <= bounds; i++) {
      if (substr(after, 1, 1) != "[") return 0
      depth = 0
      for (mark = 1; mark <= length(after); mark++) {
        if (substr(after, mark, 1) == "[") depth++
        if (substr(after, mark, 1) == "]" && --depth == 0) break
      }
      if (depth) return 0
      inner = substr(after, 2, mark - 2)
      if (!is_subscripted(inner, name, bounds)) return 0
      after = substr(after, mark + 1)
    }
    text = after
  }
  return 1
}

# Whether each mention of a table is such a subscript, in all lines of the first pass but for its own declaration.
function judge(   i, k, name, line) {
  for (i = 1; i <= lines; i++) {
    line = text_of[i]
    if (line ~ /^static const /) sub(/^[^=]*(= )?/, "", line)
    for (k = 1; k <= count; k++) {
      name = names[k]
      if (good[name] && index(line, name) && !is_subscripted(line, name, bound[name])) good[name] = 0
    }
  }
}

# First pass: the lines, and the const objects.
NR == FNR {
  if (NR == 1) count = 0
  line = text_of[++lines] = bare($0)
  if (line ~ /^static const / && (name = declared(line)) != "") {
    names[++count] = name
    bound[name] = bounds
    plain[name] = kind ~ /^static const (_Bool|(unsigned |signed )?(char|short|int|long|long long)) $/
    good[name] = 1
  }
  next
}

FNR == 1 { judge() }

# Where a declaration goes, told once.
function place(name,   why) {
  why = ""
  if (!flash) why = "the chip or the compiler has no __flash"
  else if (!bound[name]) why = "it is no array"
  else if (!plain[name]) why = "its elements are no integers"
  else if (!good[name]) why = "its address is used"
  if (tables != "") print name "," (why == "" ? "flash," : "RAM," why) > tables
  return why == ""
}

/^static const / {
  name = declared(bare($0))
  if (name in good && place(name)) sub(/^static const /, "static const __flash ")
  print
  next
}

/^extern volatile / {
  name = $0
  sub(/;$/, "", name)
  sub(/^.* /, "", name)
  if (name in is_event) next
}

/^ *ccomp_[a-z_0-9]+ = .*;$/ {
  name = $0
  sub(/ = .*$/, "", name)
  sub(/^ */, "", name)
  if (name in is_event) {
    sub(/ = /, "(")
    sub(/;$/, ");")
  }
}

{
  sub(/^__attribute__\(\((signal|interrupt)\)\)/, "__attribute__((signal, used, externally_visible))")
  print
}
