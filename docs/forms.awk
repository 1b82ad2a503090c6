# Sees that each place which the table of forms names by file and line has the name there:
# awk -f docs/forms.awk docs/DECISIONS.md, in the project's folder

/^## Forms/ { forms = 1 }

forms {
	rest = $0
	while (match(rest, /`[^`]+:[0-9]+` \(`[^`]+`\)/)) {
		split(substr(rest, RSTART + 1, RLENGTH - 1), part, "`")
		rest = substr(rest, RSTART + RLENGTH)
		split(part[1], place, ":")
		line = ""
		for (i = 0; i < place[2] && (getline line < place[1]) > 0; i++);
		if (i < place[2] || !index(line, part[3])) { print part[1] " has no " part[3]; bad = 1 }
		close(place[1])
		places++
	}
}

END { print places + 0 " places"; exit bad || !places }
