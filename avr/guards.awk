# Looks for a `return` in a block of ATOMIC_BLOCK or NONATOMIC_BLOCK, which would leave it without restoring what the
# block changed. Prints FILE:LINE of the first, by the linemarkers, and nothing where there is none.
#
# The text of a block is the statement behind the two loops of util/atomic.h, of which the inner one has `ccomp_inner`.

function blanked(text,   left) {
  while (match(text, /"([^"\\]|\\.)*"|\047([^\047\\]|\\.)*\047/)) {
    left = left substr(text, 1, RSTART - 1) "0"
    text = substr(text, RSTART + RLENGTH)
  }
  return left text
}

/^# *[0-9]+ "/ {
  number = $2 - 1
  file = $3
  gsub(/"/, "", file)
  next
}

{
  number++
  text = blanked($0)
  while (text != "") {
    if (!inside) {
      at = index(text, "for (unsigned char ccomp_inner = ")
      if (!at) break
      text = substr(text, at + 5)
      inside = 1
      depth = 1
      in_head = 1
    } else if (in_head) {
      # Up to the parenthesis that closes the head of the loop.
      if (!match(text, /[()]/)) break
      depth += substr(text, RSTART, 1) == "(" ? 1 : -1
      text = substr(text, RSTART + 1)
      if (!depth) in_head = 0
    } else {
      if (!match(text, /[{}();]|[A-Za-z_][A-Za-z_0-9]*/)) break
      word = substr(text, RSTART, RLENGTH)
      # Behind its end a statement goes on where it is an `if` with an `else`.
      if (ended) {
        ended = 0
        if (word != "else") {
          inside = 0
          continue
        }
      }
      text = substr(text, RSTART + RLENGTH)
      if (word == "return") {
        print file ":" number
        exit
      }
      if (word == "{" || word == "(") depth++
      else if (word == "}" || word == ")") depth--
      if ((word == "}" || word == ";") && !depth) ended = 1
    }
  }
}
