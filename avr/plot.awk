# Draws the RAM of globals before and after, a square for each byte, from a table of `ccomp pack`, as SVG.
#
#   awk -f plot.awk TABLE.csv >OUT.svg

BEGIN { FS = ","; side = 12; gap = 2; across = 16; left = 12; top = 34 }

function escaped(text) {
  gsub(/&/, "\\&amp;", text)
  gsub(/</, "\\&lt;", text)
  gsub(/>/, "\\&gt;", text)
  return text
}

# The square of a byte of a map that begins at x.
function square(x, number, fill, title) {
  printf "<rect x=\"%d\" y=\"%d\" width=\"%d\" height=\"%d\" fill=\"%s\" stroke=\"#888\" stroke-width=\"0.5\"><title>%s</title></rect>\n",
    x + number % across * (side + gap), top + int(number / across) * (side + gap), side, side, fill, escaped(title)
}

# A map of `whole` bytes, of which the first `used` are taken.
function map(x, name, used, whole,   i) {
  printf "<text x=\"%d\" y=\"%d\">%s: %d bytes</text>\n", x, top - 12, name, used
  for (i = 0; i < whole; i++)
    square(x, i, i < used ? "#2b6cb0" : "#ffffff", "byte " i (i < used ? "" : ", free"))
}

$1 == "total" { before = $2; after = $3 }

END {
  whole = before > after ? before : after
  width = across * (side + gap)
  rows = int((whole + across - 1) / across)
  if (rows < 1) rows = 1
  printf "<svg xmlns=\"http://www.w3.org/2000/svg\" width=\"%d\" height=\"%d\" font-family=\"sans-serif\" font-size=\"12\">\n",
    left * 3 + width * 2, top + rows * (side + gap) + 10
  map(left, "before", before, whole)
  map(left * 2 + width, "after", after, whole)
  print "</svg>"
}
