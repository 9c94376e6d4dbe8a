# Prints the calls of the device and the times. It reads the times of the same calls in C, those of SQLite, and then what the
# program prints: for each phase a line with its name, how many records, nanoseconds, and how many requests were done, how
# many were refused and how many intervals were split; and a line of calls.

# What a call is. The last block of the log is 64.
function kind(call) {
    return call == "s" ? "sync" : substr(call, 1, 1) == "r" ? "read" : substr(call, 2) + 0 <= 64 ? "log" : "data"
}

# Where the COMMIT ends whose first call is this one, or 0. After a data write come syncs, a write of the log and a sync.
function commit_end(at,    to) {
    if (at == 1 || kind($(at - 1)) != "data" || $at != "s") return 0
    for (to = at; $to == "s"; to++) {}
    return to <= NF && kind($to) == "log" && $(to + 1) == "s" ? to + 1 : 0
}

# Where the opening ends: it reads each block of the log last.
function opened(    at) {
    for (at = 2; at <= NF && $at != "r64"; at++) {}
    return at
}

function count(what, n) {
    return sprintf("%s %.2f", what, n)
}

function change_calls(n) {
    return count("reads", calls["read"] / n) ", " count("writes of the log", calls["log"] / n) ", " \
        count("of data", calls["data"] / n) ", " count("syncs", calls["sync"] / n)
}

FILENAME == ARGV[1] { in_c[$1] = $2; next }
FILENAME == ARGV[2] { in_sqlite[$1] = $2; next }
$1 != "calls" {
    if (NF != 6) { print "the program says: " $0; bad = 1 }
    name = $1; records = $2; took = $3; finished = $4; refused = $5; splits = $6
    next
}
name == "format" { next }
{
    # The sync that closes the device at the end of a job.
    if ($NF != "s") bad = 1
    NF--
    split("", calls); split("", ends); split("", units); commits = 0; unit = ""
    for (at = opened() + 1; at <= NF; at++) {
        to = commit_end(at)
        if (to == 0) {
            calls[kind($at)]++
            if (kind($at) != "read") unit = unit " " kind($at)
            continue
        }
        commits++
        for (; at <= to; at++) ends[kind($at)]++
        at--
        units[unit]++
        unit = ""
    }
    printf "%s: records %d, COMMITs %d, splits %d", name, records, commits, splits
    if (name in in_sqlite) {
        printf "; %.2f ms each, C %.2f ms, ratio %.2f, sqlite3 %.2f ms, ratio %.2f", took / records / 1e6, \
            in_c[name] / records / 1e6, in_c[name] / took, in_sqlite[name] / records / 1e6, in_sqlite[name] / took
    } else {
        printf "; %.2f ms each", took / records / 1e6
    }
    printf "\n    for each record: %s\n", change_calls(records)
    if (commits > 0) printf "    for each COMMIT: %s, %s\n", count("writes of the log", ends["log"] / commits), \
        count("syncs", ends["sync"] / commits)
    if (commits > 1) for (unit in units) printf "    %d units:%s, and the COMMIT\n", units[unit], unit
    # A GET, and a PUT or an ERASE, a COMMIT of each unit, and that which the deck ends with.
    if (refused != 0 || finished != records * (name ~ /^(update|erase)/ ? 2 : 1) + commits + 1) bad = 1
    if (commits != (name == "get" ? 0 : name ~ /many/ ? 1 : records)) bad = 1
    if (name == "get" && calls["log"] + calls["data"] + calls["sync"] != 0) bad = 1
    seen++
}
END {
    if (bad || seen != 7) { print "something is missing, or was refused"; exit 1 }
}
