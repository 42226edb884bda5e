# Cycles by function, of what counter.c profiled: nm -n PROGRAM | awk -f profile.awk - PROFILE
function value(digits,    i, n) {
    for (i = 1; i <= length(digits); i++) n = 16 * n + index("0123456789abcdef", substr(digits, i, 1)) - 1
    return n
}

FILENAME == "-" {
    if ($2 ~ /^[tTwW]$/ && $3 !~ /^\$/) {
        at[++count] = value($1)
        name[count] = $3
    }
    next
}
{
    address = value($1)
    low = 1
    high = count
    while (low < high) {
        middle = int((low + high + 1) / 2)
        if (at[middle] <= address) low = middle; else high = middle - 1
    }
    times[name[low]] += $2
    cycles[name[low]] += $3
    total += $3
}
END { for (each in cycles) printf "%12d cycles %5.1f%% %12d instructions  %s\n", cycles[each], 100 * cycles[each] / total, times[each], each }
