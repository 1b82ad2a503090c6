# Draws docs/drift.svg from what run_drift prints: awk -f docs/drift.awk crates/run_drift/stdout

# A row counts only in a list's table: a row behind it has a sample that was changed by hand.
/^list / { lists++; name = $3; sub(/:$/, "", name); names[lists] = name; table = 0; next }
/^picture / { table = 1; next }
table && $1 ~ /^[0-9]+$/ {
	above[lists, $1] = $2; below[lists, $1] = $5
	high[$1] = $4; low[$1] = $7
	if ($1 > last) last = $1
	next
}
{ table = 0 }

function x(n) { return sprintf("%.1f", 70 + n * 36) }
function y(v) { return sprintf("%.1f", 378 - v * 19) }

function text(px, py, anchor, size, words) {
	printf "<text x=\"%s\" y=\"%s\" text-anchor=\"%s\" font-size=\"%s\">%s</text>\n", px, py, anchor, size, words
}

function line(x1, y1, x2, y2, style) {
	printf "<line x1=\"%s\" y1=\"%s\" x2=\"%s\" y2=\"%s\" %s/>\n", x1, y1, x2, y2, style
}

# a list's mark, so that the lists can be told apart without their colours
function mark(l, px, py) {
	if (l == 1) printf "<circle cx=\"%s\" cy=\"%s\" r=\"3.5\" fill=\"%s\"/>\n", px, py, colour[l]
	else if (l == 2) printf "<rect x=\"%.1f\" y=\"%.1f\" width=\"7\" height=\"7\" fill=\"%s\"/>\n", px - 3.5, py - 3.5, colour[l]
	else printf "<path d=\"M%.1f %.1f l4.5 8 l-9 0 z\" fill=\"%s\"/>\n", px, py - 5, colour[l]
}

function curve(l, values, sign,   n, points) {
	points = ""
	for (n = 0; n <= last; n++) points = points " " x(n) "," y(sign * values[l, n])
	printf "<polyline points=\"%s\" fill=\"none\" stroke=\"%s\" stroke-width=\"1.5\"/>\n", substr(points, 2), colour[l]
	for (n = 0; n <= last; n++) mark(l, x(n), y(sign * values[l, n]))
}

END {
	if (lists != 3 || last != 18) { print "drift.awk: not three lists of pictures 0 to 18" > "/dev/stderr"; exit 1 }
	colour[1] = "#0072b2"; colour[2] = "#d55e00"; colour[3] = "#007a5a"
	says[1] = "list 1, " names[1] ": attains the figure above"
	says[2] = "list 2, " names[2] ": attains the figure below"
	says[3] = "list 3, " names[3] ": steps at random"

	print "<svg xmlns=\"http://www.w3.org/2000/svg\" width=\"760\" height=\"536\" viewBox=\"0 0 760 536\" font-family=\"sans-serif\" fill=\"#222222\">"
	print "<title>The largest distances from the unrounded samples, by picture, and the drift figure</title>"
	print "<rect width=\"760\" height=\"536\" fill=\"#ffffff\"/>"

	# what the figure allows
	points = ""
	for (n = 0; n <= last; n++) points = points " " x(n) "," y(high[n])
	for (n = last; n >= 0; n--) points = points " " x(n) "," y(-low[n])
	printf "<polygon points=\"%s\" fill=\"#eeeeee\"/>\n", substr(points, 2)

	for (v = -4; v <= 16; v += 4) {
		line(x(0), y(v), x(last), y(v), v ? "stroke=\"#cccccc\" stroke-width=\"0.7\"" : "stroke=\"#222222\" stroke-width=\"1\"")
		text(60, y(v) + 4, "end", 12, (v < 0 ? "\342\210\222" (-v) : v))
	}
	for (n = 0; n <= last; n += 2) {
		line(x(n), y(-5.5), x(n), y(-5.8), "stroke=\"#222222\" stroke-width=\"1\"")
		text(x(n), y(-6.6), "middle", 12, n)
	}
	line(x(0), y(18.5), x(0), y(-5.5), "stroke=\"#222222\" stroke-width=\"1\"")
	line(x(0), y(-5.5), x(last), y(-5.5), "stroke=\"#222222\" stroke-width=\"1\"")
	text(x(9), y(-7.7), "middle", 13, "picture")
	printf "<text transform=\"translate(24 %s) rotate(-90)\" text-anchor=\"middle\" font-size=\"13\">%s</text>\n", y(6.5), "grey steps below (\342\210\222) and above the unrounded sample"

	# the figure, wider than the curves that lie on it
	line(x(0), y(0), x(last), y(high[last]), "stroke=\"#999999\" stroke-width=\"6\"")
	line(x(0), y(0), x(last), y(-low[last]), "stroke=\"#999999\" stroke-width=\"6\"")
	for (l = 1; l <= lists; l++) { curve(l, above, 1); curve(l, below, -1) }

	print "<rect x=\"85\" y=\"24\" width=\"340\" height=\"96\" fill=\"#ffffff\"/>"
	line(95, 38, 125, 38, "stroke=\"#999999\" stroke-width=\"6\"")
	text(135, 42, "start", 13, "the figure: n grey steps above, n / 4 below")
	for (l = 1; l <= lists; l++) {
		line(95, 38 + 22 * l, 125, 38 + 22 * l, "stroke=\"" colour[l] "\" stroke-width=\"1.5\"")
		mark(l, 110, 38 + 22 * l)
		text(135, 42 + 22 * l, "start", 13, says[l])
	}
	print "</svg>"
}
