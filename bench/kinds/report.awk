# Prints the device calls and the processor time of each work beside those of other programs. It reads first the lines of these,
# WHO SET WORK NANOS, with * for all data sets; and then the lines of program.txt: SET WORK RECORDS NANOS, how many requests were
# done and how many were refused, and the device's reads, writes of the log, writes of data, and syncs. Those of a job without
# requests, which opens the volume and closes it, are taken off from those of the next job.

function each(at) {
    return sprintf("%.2f", ($at - open[at]) / records)
}

function beside(work,    at) {
    for (at = 1; at <= others; at++)
        if (worked[at] == work || worked[at] == "* " $2)
            printf "    %s %.2f us, ratio %.2g\n", who[at], nanos[at] / records / 1e3, nanos[at] / took
}

FILENAME == ARGV[1] { who[++others] = $1; worked[others] = $2 " " $3; nanos[others] = $4; next }
NF != 10 || $6 != 0 { print "the program says: " $0; bad = 1; next }
$2 == "open" { if ($5 != 1) bad = 1; for (at = 4; at <= NF; at++) open[at] = $at; next }
{
    # A COMMIT of each 100 records that are added, and that which the deck ends with.
    if ($5 != $3 + ($2 == "add" ? int($3 / 100) : 0) + 1) bad = 1
    records = $3
    took = $4 - open[4]
    printf "%s %s: records %d, %.2f us of processor time each (opened in %.3f s, with reads %d)\n", $1, $2, records, \
        took / records / 1e3, open[4] / 1e9, open[7]
    printf "    for each record: reads %s, writes of the log %s, of data %s, syncs %s\n", each(7), each(8), each(9), each(10)
    beside($1 " " $2)
    seen++
}
END {
    if (bad || seen != 6) { print "something is missing, or was refused"; exit 1 }
}
