# Sees that the text of functions, and of all that they call, holds neither a division nor a remainder. The gate's laws see the code that the
# compiler takes; constants and lengths of arrays are computed before that, and are seen here alone:
# awk -v of='FUNCTION ..' -f docs/undivided.awk SOURCE.rt

function fail(what) { print what; bad = 1 }

{ line[++lines] = $0 }

# Each word of a function's text is a keyword, a call, which is followed, a type, or a name that the text itself gives to a parameter, a field or
# a variable. What is neither could be a constant, which the compiler has computed.
function words(name, text, own,    word, before, known) {
	before = ""
	while (match(text, /[A-Za-z_][A-Za-z0-9_]*/)) {
		before = before substr(text, 1, RSTART - 1)
		word = substr(text, RSTART, RLENGTH)
		text = substr(text, RSTART + RLENGTH)
		known = word ~ /^(fn|pub|let|mut|if|else|while|return|true|false)$/ || text ~ /^(\(|: )/ || before ~ /-> $/
		if (text ~ /^\(/ && before !~ /fn $/ && !(word in seen)) { seen[word] = 1; wait[++waiting] = word }
		known = known || before ~ /: $/ && word ~ /^(bool|[iu](8|16|32|64|size))$/ || before ~ /^ *$/ && text ~ /^ \{/
		if (!known && !(word in own)) fail(name " names " word ", which cannot be told")
		before = before word
	}
}

# the text of a function goes from its fn to the brace in the same column, without comments and contracts
function source(name,    i, j, n, end, text, word, own, body) {
	for (i = 1; i <= lines && line[i] !~ "^ *(pub |pub\\(crate\\) )?fn " name "\\("; i++);
	if (i > lines) { fail(name ": its text was not given"); return }
	end = line[i]
	sub(/[^ ].*/, "}", end)
	for (j = i; j <= lines && line[j] != end; j++) {
		if (line[j] ~ /^ *(requires|ensures) /) continue
		text = line[j]
		sub(/\/\/.*/, "", text)
		if (text ~ /[\/%]/) fail(name " has a division or a remainder in its text")
		body[++n] = text
		# what it names itself
		while (match(text, /let (mut )?[a-z_][a-z0-9_]*|[a-z_][a-z0-9_]*: /)) {
			word = substr(text, RSTART, RLENGTH)
			text = substr(text, RSTART + RLENGTH)
			sub(/^let (mut )?/, "", word)
			sub(/: $/, "", word)
			own[word] = 1
		}
	}
	for (j = 1; j <= n; j++) words(name, body[j], own)
}

END {
	waiting = split(of, wait, " ")
	for (i = 1; i <= waiting; i++) seen[wait[i]] = 1
	for (i = 1; i <= waiting; i++) {
		source(wait[i])
		listed = listed " " wait[i]
	}
	if (!bad && waiting) print "neither a division nor a remainder in the text of" listed
	exit bad || !waiting
}
