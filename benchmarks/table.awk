# Makes the table of the lines that `compare` prints. Where a call and its kind stand more than once, the lesser times
# count.
BEGIN { most = 1.5 }

{ key = $1 FS $2 FS $3 FS $4 }

!(key in proved) { keys[++count] = key; proved[key] = plain[key] = 1e300 }

$5 == "differ" { differ[key] = 1; next }

{
    if ($5 < proved[key]) proved[key] = $5
    if ($6 < plain[key]) plain[key] = $6
}

END {
    printf "%-10s %-10s %5s %5s %12s %12s %7s\n", "call", "book", "jobs", "top", "proved, us", "plain, us", "ratio"
    for (i = 1; i <= count; i++) {
        key = keys[i]
        split(key, field, FS)
        printf "%-10s %-10s %5d %5d ", field[1], field[2], field[3], field[4]
        if (key in differ) {
            print "the answers differ"
            failed = 1
            continue
        }
        ratio = proved[key] / plain[key]
        if (ratio > greatest) greatest = ratio
        printf "%12.2f %12.2f %7.2f\n", proved[key], plain[key], ratio
    }
    printf "\nall answers are the same: %s; greatest ratio %.2f, at most %.2f passes\n",
        failed ? "no" : "yes", greatest, most
    exit failed || count == 0 || greatest > most
}
