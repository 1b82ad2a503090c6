# Prints how many of the library's instructions were run, function by function.
#     awk -f coverage.awk NAMES PROFILE INSTRUCTIONS
# NAMES are the library's functions, a line for each; PROFILE is callgrind's, by instructions, and INSTRUCTIONS are
# objdump's of the same program. Instructions that only fill a gap are not counted.

FNR == 1 { file++ }

file == 1 { functions[$1] = 1 }

file == 2 && /^0x/ { address = $1; sub(/^0x0*/, "", address); run[address] = 1 }

file == 3 && /^[0-9a-f]+ <.*>:$/ {
    name = $2
    gsub(/^<|>:$/, "", name)
}

file == 3 && name in functions && /^ +[0-9a-f]+:/ && $2 !~ /^(nop|nopw|nopl|data16|cs|xchg|int3)/ {
    address = $1
    sub(/:$/, "", address)
    count[name]++
    met[name] += address in run
}

END {
    for (name in count) {
        printf "%6d of %6d  %s\n", met[name], count[name], name | "sort -k 4"
        all += count[name]
        all_met += met[name]
    }
    close("sort -k 4")
    printf "%6d of %6d instructions of the library\n", all_met, all
    exit all == 0
}
