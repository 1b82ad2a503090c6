# Instructions a call, by kinds: from the lines that calls.c prints, and from callgrind's profile of it, whose first part
# is what was before the first kind.

BEGIN {
    FS = "\t"
    print "# Instructions a call, as callgrind counts them; make bench-counts compares with these, and with ACCEPT=1 writes"
    print "# them. Of the library; of memcpy and memset, at one a byte and some for the call; and what is called."
}

FILENAME == ARGV[1] { calls[FNR] = $1; names[FNR] = $2; kinds = FNR; next }

/^part: / { part++; next }
/^fn=/ { memory = $0 == "fn=memcpy" || $0 == "fn=memset"; next }

# the line after it has what was called, which is counted where it stands itself
/^calls=/ { getline; next }

/^[0-9]+ [0-9]+$/ {
    split($0, numbers, " ")
    if (memory)
        moved[part - 1] += numbers[2]
    else
        own[part - 1] += numbers[2]
}

END {
    if (part != kinds + 1) {
        print "callgrind has " part " parts and not " kinds + 1 >"/dev/stderr"
        exit 1
    }
    for (kind = 1; kind <= kinds; kind++)
        printf "%.1f\t%.1f\t%s\n", own[kind] / calls[kind], moved[kind] / calls[kind], names[kind]
}
