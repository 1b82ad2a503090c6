# Prints what C has to declare: of Rattle files (.rt) the functions that they export, of a header (.h) those that it
# declares; a line for each argument and each result, in the same form. Nothing else holds the two together, and two
# arguments of one type that change places in a call of fifty would go unseen.
#     awk -f declarations.awk FILE.. | sort

# the text of a declaration begins in this line
FILENAME ~ /\.rt$/ && /^pub extern "C" fn / { text = ""; inside = 1 }
FILENAME ~ /\.h$/ && /^[a-z0-9_]+ fozdrik_[a-z_]+\($/ { text = ""; inside = 1 }

inside { text = text " " $0 }

inside && FILENAME ~ /\.rt$/ && /^(pub .*)?\) -> / { inside = 0; declared_in_rattle(text) }
inside && FILENAME ~ /\.h$/ && /\);$/ { inside = 0; declared_in_c(text) }

function declared_in_rattle(text,    name, result, n, parts, i, pair, place) {
    name = text
    sub(/\(.*/, "", name)
    sub(/.* /, "", name)
    result = text
    sub(/.*\) -> /, "", result)
    sub(/ .*/, "", result)
    sub(/^[^(]*\(/, "", text)
    sub(/,? *\) -> .*/, "", text)
    say(name, 0, in_c(result))
    place = 0
    n = split(text, parts, ",")
    for (i = 1; i <= n; i++) {
        split(parts[i], pair, ": ")
        gsub(/ /, "", pair[1])
        if (pair[2] == "&[u8]" || pair[2] == "&mut [u8]") {
            say(name, ++place, (pair[2] == "&[u8]" ? "const " : "") "uint8_t *" pair[1])
            say(name, ++place, "size_t " pair[1] "_len")
        } else {
            say(name, ++place, in_c(pair[2]) " " pair[1])
        }
    }
}

function declared_in_c(text,    name, result, n, parts, i) {
    gsub(/ +/, " ", text)
    sub(/^ /, "", text)
    result = text
    sub(/ .*/, "", result)
    name = text
    sub(/\(.*/, "", name)
    sub(/.* /, "", name)
    sub(/^[^(]*\(/, "", text)
    sub(/\);$/, "", text)
    say(name, 0, result)
    n = split(text, parts, ",")
    for (i = 1; i <= n; i++) {
        sub(/^ /, "", parts[i])
        say(name, i, parts[i])
    }
}

function in_c(type) {
    if (type == "usize") return "size_t"
    if (type == "u8") return "uint8_t"
    if (type == "u32") return "uint32_t"
    if (type == "i32") return "int32_t"
    return "unknown:" type
}

function say(name, place, what) {
    printf "%s %02d %s\n", name, place, what
}
