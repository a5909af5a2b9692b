#!/bin/sh
# Tests the pages that ox writes, in a real browser: host/browser/test.sh CHROMIUM OX.. where CHROMIUM is the command that browser_ready sets
# and OX.. the words that run ox. Its last line tells how many checks passed and failed. RECORDS: how many records the large page has, else 20,000.
set -u
. "$(dirname "$0")/../among_samples.sh"
chromium=$1
shift
run=$*
records=${RECORDS:-20000}

# shellcheck disable=SC2086
ox() { $run "$@"; }
# paged OUT ARGUMENT..: the page of a preview; a refused file has one too
paged() {
    page=$1
    shift
    ox preview "$@" --html "$page" >said 2>&1
    [ -s "$page" ] || {
        cat said
        echo "browser: no page of $1"
        exit 1
    }
}

# The large file, and beside it what stands in it, a line a record: number, call, date, time, band, mode. What is looked for also stands
# across the borders of cells, as in `1812` and `40m`. Some records are repeated, have no call or no date, or bear a confirmation.
awk -v records="$records" '
    function chosen(from) { return substr(from, 1 + int(rand() * length(from)), 1) }
    function field(name, value) { return value == "" ? "" : "<" name ":" length(value) ">" value " " }
    BEGIN {
        srand(20260613)
        bands = split("160m 80m 40m 30m 20m 17m 15m 12m 10m 6m 2m 70cm", band, " ")
        modes = split("SSB CW FT8 RTTY FM", mode, " ")
        letters = "ABCDEFGHIJKLMNOPQRSTUVWXYZ"
        print "Made up. <ADIF_VER:5>3.1.6 <EOH>"
        for (n = 1; n <= records; n++) {
            if (n % 13) {
                call = chosen(letters) chosen(letters) int(rand() * 10) chosen(letters) chosen(letters) chosen(letters) (n % 97 ? "" : "/P")
                date = sprintf("2026%02d%02d", 1 + int(rand() * 12), 1 + int(rand() * 28))
                time = sprintf("%02d%02d", int(rand() * 24), int(rand() * 60))
                b = band[1 + int(rand() * bands)]
                m = mode[1 + int(rand() * modes)]
            }
            c = n % 501 ? call : ""
            d = n % 503 ? date : ""
            print field("CALL", c) field("QSO_DATE", d) field("TIME_ON", time) field("BAND", b) field("MODE", m) \
                (n % 11 ? "" : "<QSL_RCVD:1>Y ") "<EOR>"
            print n "\t" c "\t" d "\t" time "\t" b "\t" m >"large.tsv"
        }
    }' >large.adi
# the log has the first fifth, and no confirmation
head -n "$((records / 5))" large.adi | sed 's/<QSL_RCVD:1>Y //' >logged.adi
# texts that want to be markup, to turn the reading order, to be found whole in a box, or to stretch the page
awk '
    function field(name, value, bytes) { return "<" name ":" bytes ">" value " " }
    function put(call, bytes, band, mode) {
        print field("CALL", call, bytes) field("QSO_DATE", "20260613", 8) field("TIME_ON", "1804", 4) \
            field("BAND", band, length(band)) field("MODE", mode, length(mode)) "<EOR>"
    }
    BEGIN {
        long = "WWWWWWWW"
        while (length(long) < 4096) long = long long
        put("<script>hacked = 1</script>", 27, "40m", "SSB")
        put("<img src=x onerror=hacked=1>", 28, "40m", "SSB")
        put("W1AW&amp;\"", 10, "40m", "SSB")
        put("A\342\200\256B\342\200\254C", 9, "40m", "SSB")
        put("\327\220\327\221\327\222", 6, "40m", "SSB")
        put(long, length(long), "40m", "SSB")
        put("WWWWWWWWWWWWWWWW", 16, long, long)
        put("</noscript>", 11, "40m", "SSB")
    }' >'<b>&"hostile.adi'

for log in samples/station logged; do
    ox list $log.adi "${log#samples/}.list" >said 2>&1 || {
        cat said
        echo "browser: no list of $log.adi"
        exit 1
    }
done
paged lotw.html samples/lotw.adi --log station.list --download
paged fieldday.html samples/fieldday.adi --log station.list
paged club.html samples/club.adi
paged some.html samples/fieldday.adi --log station.list --only duplicate-in-log
paged ignored.html samples/club.adi --download
paged refused.html samples/wrong-length.adi
paged hostile.html '<b>&"hostile.adi'
paged large.html large.adi --log logged.list
# a script that fails at once
sed "s/^'use strict';/&throw new Error('broken');/" fieldday.html >broken.html

python3 "$here/test.py" "$chromium"
