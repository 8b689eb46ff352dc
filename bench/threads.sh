#!/bin/sh
# Memory and speed of runs with callers in threads. Run by hand, on a machine that does nothing else. The words name
# the measurements; without words all of them are made:
#   memory   the most memory that runs at the limits of a script have resident
#   speed    8 callers on 8 CPUs beside one caller that makes the same reads, without any text, and 8 threads in C that only
#            count beside one (plain_threads.c)
#   thread   a scope in which one thread is started and joined
#   visit    an uncontended visit of a CPU, and a lock of a `Mutex`
# BENCH_RNG and BENCH_PROGRAM can name other builds of the programs. BENCH_UNDER is put before each measured program:
# `chrt --rr 1`, as root, keeps the machine's other work away.
set -eu
cd "$(dirname "$0")/.."
. bench/built.sh
take_words bench/threads.sh 'memory speed thread visit' "$@"
room=$(mktemp -d)
trap 'rm -rf "$room"' EXIT
times=15

# callers N CPUS VERSION EVENTS: a script in which caller 0 makes the core ready and forks the N - 1 others in order.
# Each caller moves to its own CPU and makes the events that the awk function events(caller, most) in EVENTS prints. If
# it prints as many as it may, each caller makes 1,024 events, with its forks and `on` among them: 65,536 by 64 callers.
callers() {
    awk -v callers="$1" -v cpus="$2" -v version="$3" "$4"'
    function zeros(n,  text) { for (text = "0"; length(text) < n;) text = text text; return substr(text, 1, n) }
    BEGIN {
        print "rngscript " version "\ncpus " cpus "\ncaller 0\ncredit 256"
        for (c = 1; c < callers; c++) print "fork " c
        for (c = 0; c < callers; c++) {
            if (c > 0) print "caller " c
            print "on " c
            events(c, 1024 - 1 - (c == 0 ? callers : 0))
        }
        print "end"
    }'
}

# small(c, j): event j of caller c in the mix of a load.
small='
    function small(c, j,  k, n) {
        k = (3 * c + j) % 8; n = 1 + (17 * j) % 100
        if (k == 0) print "read " n " 0"
        else if (k == 1) print "vread " n " 0"
        else if (k == 2) print "kread " n
        else if (k == 3) print "int64"
        else if (k == 4) print "irq " j " " c
        else if (k == 5) print "write 0011223344556677"
        else if (k == 6) print "uread " n
        else print "reseed"
    }'

# resident NAME FILE: runs a script, and prints how much memory was resident at most, how long the run took, and how
# many lines and bytes the transcript has.
resident() {
    # shellcheck disable=SC2086
    { ${BENCH_UNDER:-} time -f '%M %e' "$program" run <"$2" >"$room/out"; } 2>"$room/said"
    [ "$(tail -n 1 "$room/out")" = end ] || {
        echo "$1: no transcript: $(head -n 1 "$room/out")" >&2
        exit 1
    }
    awk -v name="$1" -v lines="$(wc -l <"$room/out")" -v bytes="$(wc -c <"$room/out")" \
        '{ printf "%-60s %7d KiB %6.2f s  %d lines, %d bytes\n", name, $1, $2, lines - 2, bytes }' "$room/said"
}

memory() {
    program=${BENCH_RNG:-$(built rng_tool)}
    callers 64 64 1 "$small"'
        function events(c, n,  j) { for (j = 0; j < n; j++) small(c, j) }' >"$room/events"
    callers 64 256 3 '
        function events(c, n,  j) {
            for (j = 0; j < 32; j++) print "state " j % 16 "\nvread " 8 + j " 0"
        }' >"$room/states"
    callers 64 64 1 '
        function events(c, n) { print "read 262144 0" }' >"$room/reads"
    callers 64 256 3 '
        function events(c, n,  j) {
            for (j = 0; j < 32; j++) print "state " j % 16 "\nvread 8 0"
            print "inside 1 vread 130944\nvread 130944 0"
            for (j = 66; j < n; j++) print "write " zeros(266)
        }' >"$room/all"
    echo "resident at most (limit: 200 MB)"
    resident '65,536 small events by 64 callers' "$room/events"
    resident '64 callers with sixteen states each, 256 CPUs' "$room/states"
    resident '16 MiB of reads, 256 KiB by each of 64 callers' "$room/reads"
    resident "all of it at once, in a script of $(wc -c <"$room/all") bytes" "$room/all"
}

# kreads FORKS APART: 64,000 reads of 32 bytes for the kernel, 8,000 on each of 8 CPUs whose numbers are APART apart, by
# a caller for each CPU or by one caller.
kreads() {
    awk -v forks="$1" -v apart="$2" 'BEGIN {
        print "rngscript 1\ncpus " 8 * apart "\ncaller 0\ncredit 256"
        for (c = 1; c < 8 && forks; c++) print "fork " c
        for (c = 0; c < 8; c++) {
            if (c > 0 && forks) print "caller " c
            print "on " c * apart
            for (j = 0; j < 8000; j++) print "kread 32"
        }
        print "end"
    }'
}

# least LOOPS WORD NUMBER [FILE]: the least nanoseconds of several runs of a loop.
least() {
    for _ in $(seq "$times"); do
        begun=$(date +%s%N)
        # shellcheck disable=SC2086
        ${BENCH_UNDER:-} "$1" "$2" "$3" <"${4:-/dev/null}" >"$room/out"
        echo $(($(date +%s%N) - begun))
    done | sort -n | head -n 1
}

# beyond LOOPS WORD NUMBER [FILE]: the same, without the time that the program takes to start, to read the file and to
# end.
beyond() {
    echo $(($(least "$@") - $(least "$1" "$2" 0 "${4:-/dev/null}")))
}

# show NAME NANOSECONDS: prints the time of a run.
show() {
    awk -v name="$1" -v all="$2" \
        'BEGIN { printf "%-60s %9.1f ms %11.0f events a second\n", name, all / 1e6, 64000e9 / all }'
}

speed() {
    loops=${BENCH_PROGRAM:-$(built bench)}
    kreads 1 1 >"$room/eight"
    kreads 1 8 >"$room/apart"
    kreads 0 1 >"$room/one"
    eight=$(beyond "$loops" runs 1 "$room/eight")
    apart=$(beyond "$loops" runs 1 "$room/apart")
    one=$(beyond "$loops" runs 1 "$room/one")
    echo "a run of 64,000 reads of 32 bytes, the least of $times, on $(nproc) processors"
    show "8 callers on CPUs 0 to 7" "$eight"
    show "8 callers on CPUs 0, 8, 16 to 56" "$apart"
    show "one caller on CPUs 0 to 7" "$one"
    awk -v eight="$eight" -v apart="$apart" -v one="$one" 'BEGIN {
        printf "%-60s %9.2f    %.2f with the CPUs apart (at least 2.5)\n", "one to eight", one / eight, one / apart
    }'
    plain_threads
}

# The speed of 8 threads that share nothing, beside one, with as much work as the reads are for one caller.
plain_threads() {
    "${CC:-cc}" -O2 -pthread -o "$room/plain_threads" bench/plain_threads.c
    # shellcheck disable=SC2086
    awk -v one="$(${BENCH_UNDER:-} "$room/plain_threads" 1 16000000)" \
        -v eight="$(${BENCH_UNDER:-} "$room/plain_threads" 8 16000000)" \
        'BEGIN { printf "%-60s %9.2f\n", "one to eight, of threads in C that only count", one / eight }'
}

thread() {
    loops=${BENCH_PROGRAM:-$(built bench)}
    awk -v all="$(beyond "$loops" threads 20000)" 'BEGIN { printf "%-60s %9.1f us\n", "a scope, a thread and its join", all / 2e7 }'
}

visit() {
    loops=${BENCH_PROGRAM:-$(built bench)}
    awk -v taken="$(beyond "$loops" visits 10000000)" -v locked="$(beyond "$loops" locks 10000000)" 'BEGIN {
        printf "%-60s %9.1f ns\n", "lane: taken, an interrupt mixed, and put", taken / 1e7
        printf "%-60s %9.1f ns\n", "Mutex: locked, and unlocked", locked / 1e7
    }'
}

[ $# -gt 0 ] || set -- memory speed thread visit
for word; do "$word"; done
