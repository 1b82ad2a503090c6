# How the counts have changed: from the kept ones and the new ones, in the form that per_call.awk prints. With accept
# set, the new ones are about to be kept.

function percent(before, now) {
    return 100 * (now - before) / before
}

function change(before, now) {
    if (before == now)
        return "0"
    if (before == 0)
        return "new"
    return sprintf("%+.1f %%", percent(before, now))
}

BEGIN {
    FS = "\t"
    form = "%9s %9s %9s   %7s %7s %9s   %s\n"
    print "instructions a call: of the library, and of memcpy and memset, one a byte"
    printf form, "before", "now", "change", "before", "now", "change", ""
}

/^#/ { next }

FILENAME == ARGV[1] { own[$3] = $1; moved[$3] = $2; next }

{
    seen[$3] = 1
    kinds++
    if (!($3 in own)) {
        printf form, "", $1, "", "", $2, "", $3 " (no count is kept)"
        differ++
        next
    }
    printf form, own[$3], $1, change(own[$3], $1), moved[$3], $2, change(moved[$3], $2), $3
    if (own[$3] != $1 || moved[$3] != $2)
        differ++
    of_own = percent(own[$3], $1)
    if (of_own < lowest)
        lowest = of_own
    if (of_own > highest)
        highest = of_own
}

END {
    for (name in own)
        if (!(name in seen)) {
            printf form, own[name], "", "", moved[name], "", "", name " (is not counted any more)"
            differ++
        }
    if (!differ) {
        print "all " kinds " kinds are as kept"
        exit
    }
    printf "%d of %d kinds differ from what is kept; of the library from %+.1f %% to %+.1f %%\n", differ, kinds, lowest, highest
    if (!accept)
        print "make bench-counts ACCEPT=1 keeps the new counts"
}
