# Draws the pairs that `lnc edges` lists, beside the points, as an SVG of one panel for each pair of files:
#   awk -f draw.awk scale=0.13 middle=0 moved=0 title='..' POINTS EDGES [scale=.. POINTS EDGES]..
# `scale` is the length of a unit, `middle` the coordinate in the middle of the panel. Where `moved` isn't 0 each point is drawn twice: pale where it is, and dark where its perturbation takes it, much enlarged: the smaller
# its index the farther, and in y farther than in x.
function place(i) { return sprintf("%.1f %.1f", 150 + 300 * panels + X[i] * large, 155 - Y[i] * large) }
function dot(i, fill) { split(place(i), at, " "); return "  <circle cx=\"" at[1] "\" cy=\"" at[2] "\" r=\"" (moves ? 5 : 3) "\" fill=\"" fill "\"/>" }
function close_panel(   i, k) {
  if (!drawing) return
  if (moves) for (i = 1; i <= count; i++) print dot(i, "#bbbbbb")
  # the rank of a point among the indices says how far it moves
  if (moves) for (i = 1; i <= count; i++) { rank = 0; for (k = 1; k <= count; k++) rank += INDEX[k] < INDEX[i]
    Y[i] += 0.35 * 0.55 ^ (2 * rank); X[i] += 0.35 * 0.55 ^ (2 * rank + 1) }
  for (k = 1; k <= edges; k++) print "  <path d=\"M" place(AT[FROM[k]]) " L" place(AT[TO[k]]) "\" stroke=\"#1f4e8c\" stroke-width=\"2\"/>"
  for (i = 1; i <= count; i++) { print dot(i, "#1f4e8c"); if (moves) { split(place(i), at, " "); print "  <text x=\"" at[1] + 8 "\" y=\"" at[2] - 6 "\">" INDEX[i] "</text>" } }
  print "  <text x=\"" 20 + 300 * panels "\" y=\"315\" fill=\"#444444\">" name "</text>"
  panels++; count = 0; edges = 0; drawing = 0
}
BEGIN { print "<svg xmlns=\"http://www.w3.org/2000/svg\" viewBox=\"0 0 900 340\" font-family=\"Helvetica, Arial, sans-serif\" font-size=\"15\">"
  print "  <rect width=\"900\" height=\"340\" fill=\"#ffffff\"/>" }
FNR == 1 && /^point/ { close_panel(); drawing = 1; reading = 1; large = scale; moves = moved; name = title; next }
FNR == 1 { reading = 0 }
reading { split($0, f, ","); count++; INDEX[count] = f[1] + 0; AT[f[1] + 0] = count; X[count] = f[2] - middle; Y[count] = f[3] - middle; next }
{ edges++; FROM[edges] = $1; TO[edges] = $2 }
END { close_panel(); print "</svg>" }
