# Prints a file as a must-fail edit changes it: awk -f docs/edited.awk EDIT FILE

FNR == NR && /^file: / { here = index(ARGV[2], substr($0, 7)) }
FNR == NR && here && /^old: / { old[++pairs] = substr($0, 6) }
FNR == NR && here && /^new: / { new[pairs] = substr($0, 6) }
FNR == NR { next }

{
	for (i = 1; i <= pairs; i++)
		if (at = index($0, old[i])) { $0 = substr($0, 1, at - 1) new[i] substr($0, at + length(old[i])); exchanged++ }
	print
}

END { exit !pairs || exchanged != pairs }
