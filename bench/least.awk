# A table: awk -v kind=KIND -f bench/least.awk COUNTS TIMES. TIMES has a line for each list, file or capture and each place of the code: its
# kind (capture/96: so many bytes captured of each frame), n, packets and calls, then nanoseconds a packet as bench.c tells them: proved,
# part, twin, twin/sys, read. The least of each over the places is shown. COUNTS has kind, n and the instructions of proved, twin, twin/sys.
function cell(x) { return x == "-" ? x : sprintf("%.2f", x) }
function over(a, b) { return a == "-" || b == "-" ? "-" : sprintf("%.2f", a / b) }
function greater(a, b) { return a + 0 > b + 0 ? a : b }
function row(a, b, c, d, e, f, g, h, i, j, k, l, m) {
    printf "%6s %9s %6s %9s %9s %9s %9s %9s %9s %9s %9s %9s %9s\n", a, b, c, d, e, f, g, h, i, j, k, l, m
}

FILENAME == ARGV[1] { proved[$1, $2] = $3; twin[$1, $2] = $4; sys[$1, $2] = $5; next }
$1 !~ "^" kind { next }
{
    key = $1 " " $2 " " $3 " " $4
    if (!(key in seen)) order[++loads] = key
    for (k = 5; k <= 9; k++) if (!(key in seen) || $k + 0 < least[key, k] + 0) least[key, k] = $k
    seen[key] = 1
}
END {
    row("n", "packets", kind == "capture" ? "bytes" : "calls", "proved", "twin", "twin/sys", "RATIO", "RATIO/sys", "ins.", "ins.twin",
        "ins./sys", kind == "capture" ? "libpcap" : "read", kind == "capture" ? "PCAP" : kind == "feed" ? "scan" : "")
    for (i = 1; i <= loads; i++) {
        key = order[i]
        split(key, word, "[ /]")
        bytes = word[5] != ""
        n = word[2 + bytes]
        same = over(least[key, 5], least[key, 7])
        other = over(least[key, 5], least[key, 8])
        counted = (kind, n) in proved
        row(n, word[3 + bytes], bytes ? word[2] : word[4], cell(least[key, 5]), cell(least[key, 7]), cell(least[key, 8]), same, other,
            counted ? proved[kind, n] : "-", counted ? twin[kind, n] : "-", counted ? sys[kind, n] : "-",
            cell(least[key, bytes ? 6 : 9]), bytes ? over(least[key, 6], least[key, 5]) : kind == "feed" ? cell(least[key, 6]) : "")
        most = greater(same, most)
        most_other = greater(other, most_other)
    }
    print "The highest: RATIO " most ", RATIO/sys " most_other "."
}
