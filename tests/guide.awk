# The desk of docs/GUIDE.md as records in hex, at `scale` ticks to a millisecond: T, J and d from the table of the desk, costs from the times
# that were measured, each instance rounded up. Fails where a cost in the guide is another.
function word(x) { return sprintf("%02x%02x", x % 256, int(x / 256)) }

# tenths(TIME): a time in ms with one decimal, in tenths.
function tenths(time) { sub(/[.]/, "", time); return time + 0 }

# entries(I, PER): E of callback i at so many ticks to a millisecond, as the guide writes it, and in `entry`.
function entries(i, per,    m, times, k, ticks, text) {
    m = split(measured[i], times, ", then ")
    entry[0] = 0
    for (k = 1; k <= m; k++) {
        ticks = int((tenths(times[k]) * per + 9) / 10)
        text = k == 1 ? ticks : text ", " entry[k - 1] " + " ticks
        entry[k] = entry[k - 1] + ticks
    }
    for (k = m + 1; k <= 8; k++) entry[k] = 0
    used = m
    return text
}

BEGIN { FS = " *[|] *" }
NF == 11 && $2 ~ /^[0-9]+$/ { n = $2; kind[n] = $4; following[n] = $5; period[n] = $6; jitter[n] = $7; distance[n] = $8; cost[n] = $9 }
NF == 7 && $4 ~ /^[0-9]+[.][0-9]/ { measured[$2] = $4; coarse[$2] = $5; fine[$2] = $6 }
END {
    for (i = 1; i <= n; i++) {
        if (entries(i, 10) != fine[i] || entries(i, 1) != coarse[i]) bad = i
        text = entry[1]
        for (k = 2; k <= used; k++) text = text ", " entry[k]
        if (text != cost[i]) bad = i
        entries(i, scale)
        printf "%02x%02x%02x00%s%s%s0000", kind[i], following[i], used, word(scale * period[i]), word(scale * jitter[i]), word(scale * distance[i])
        for (k = 1; k <= 8; k++) printf "%s", word(entry[k])
        printf "00000000"
    }
    if (bad) print "the costs of callback " bad " in the guide are not those of the times measured" >"/dev/stderr"
    exit bad || n == 0
}
