# Writes rows of numbers, as show.antt.in has them, in words: a row is 'row' and ten numbers.
function some(n, what) { return n " " what (n == 1 ? "" : "s") }
function tag(t, c, v) { return "tag (" t ", " c "), value " v }
function did(a, x, y) {
    if (a == 0) return "fresh " x " " y
    if (a == 1) return "begin read " x
    if (a == 2) return "begin write " x " " y
    if (a == 3) return "deliver " x " " y
    if (a == 4) return "node down " x
    if (a == 5) return "console down " x
    if (a == 6) return "node up " x
    if (a == 7) return "restart " x
    if (a == 8) return "  node " x
    if (a == 9) return "  cell " x " " y
    return "  board"
}
function saw() {
    if ($6 == 1) return "holds " tag($7, $8, $9)
    if ($6 == 2) return frames[$7] ($7 == 2 || $7 == 3 ? " with " tag($8, $9, $10) : "")
    if ($6 == 3) return "of " some($7, "node") " and " some($8, "console")
    if ($7 == 0) return "refused " $8
    return outcomes[$7] ($7 == 5 ? " with " tag($9, $10, $11) : "")
}
BEGIN {
    split("done handed heard turned finished discarded", outcomes)
    split("ask reply put ack", frames)
    frames[0] = "nothing"
}
$3 == 11 { printf "%sP%s\n", (NR > 1 ? "\n" : ""), $2; next }
{ printf "  %-16s %s\n", did($3, $4, $5), saw() }
